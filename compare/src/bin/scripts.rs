//! `scripts SEED COUNT`: prints random scripts in the line protocol.

use std::io::{self, BufWriter, Write};
use std::process::ExitCode;

fn main() -> ExitCode {
    let numbers: Option<Vec<u64>> =
        std::env::args().skip(1).map(|word| word.parse().ok()).collect();
    let Some(&[seed, count]) = numbers.as_deref() else {
        eprintln!("usage: scripts SEED COUNT");
        return ExitCode::FAILURE;
    };
    match write_scripts(seed, count) {
        Ok(()) => ExitCode::SUCCESS,
        Err(error) => {
            eprintln!("scripts: {error}");
            ExitCode::FAILURE
        }
    }
}

fn write_scripts(seed: u64, count: u64) -> io::Result<()> {
    let mut out = BufWriter::with_capacity(1 << 16, io::stdout().lock());
    for script in 0..count {
        compare::generator::write_script(seed, script, &mut out)?;
    }
    out.flush()
}
