//! `records < LINES > RECORDS`: the records that `runpage` reads, from lines.

use std::io::{self, Write};

fn main() -> io::Result<()> {
    let text = io::read_to_string(io::stdin())?;
    let records = compare::records::encode(&text).map_err(io::Error::other)?;
    io::stdout().write_all(&records)
}
