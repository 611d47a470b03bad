//! Random scripts in the line protocol, each one reproducible from its seed.

mod clashes;
mod damage;
mod limits;
mod node;
mod page_writer;
mod random;
mod response_writer;
mod script;
mod vocabulary;

pub use script::write_script;
