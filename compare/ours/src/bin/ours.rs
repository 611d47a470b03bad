//! Reads host calls on standard input and writes one answer line for each.

use std::io;

fn main() -> io::Result<()> {
    compare::protocol::serve_by(&mut ours::Host::default(), io::stdin().lock(), io::stdout().lock())
}
