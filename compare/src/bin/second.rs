//! Reads host calls on standard input and writes one answer line for each.

use std::io;

fn main() -> io::Result<()> {
    compare::protocol::serve(io::stdin().lock(), io::stdout().lock())
}
