//! A plain interpreter of USAT pages (TS 31.113, document 01) that shares no
//! code with the proved one, and a generator of scripts to compare the two.

pub mod byte_code;
pub mod command;
pub mod counting;
pub mod generator;
pub mod handler;
pub mod history;
pub mod loader;
pub mod machine;
pub mod page;
pub mod protocol;
pub mod records;
pub mod response;
pub mod scope;
pub mod store;
pub mod tlv;
pub mod value;
