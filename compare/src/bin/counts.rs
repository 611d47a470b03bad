//! `counts [LEAST]`: reads answers on standard input and prints how often each
//! number of document 01's table was met, in all and by each call. It fails if
//! one of them was met fewer than LEAST times.

use std::io::{self, BufRead};
use std::process::ExitCode;

use compare::counting::Counts;

fn main() -> ExitCode {
    let least: u64 = std::env::args().nth(1).and_then(|word| word.parse().ok()).unwrap_or(0);
    let mut counts = Counts::default();
    for line in io::stdin().lock().lines().map_while(Result::ok) {
        counts.add(&line);
    }
    match counts.print(least) {
        true => ExitCode::SUCCESS,
        false => ExitCode::FAILURE,
    }
}
