//! How often each number of document 01's table was answered, by each call.

use std::collections::BTreeMap;

/// The table without 32 and 35, which the line protocol cannot bring about.
const NUMBERS: [u8; 15] = [0, 1, 2, 3, 4, 5, 6, 7, 16, 17, 18, 19, 22, 33, 34];
const CALLS: [&str; 8] = ["create", "env", "load", "step", "run", "respond", "end", "read"];

#[derive(Default)]
pub struct Counts {
    met: BTreeMap<(u8, String), u64>,
    no_call: u64,
}

impl Counts {
    pub fn add(&mut self, answer: &str) {
        let mut words = answer.split(' ');
        let call = words.next().unwrap_or_default();
        match words.next().and_then(|number| number.parse().ok()) {
            Some(number) => *self.met.entry((number, call.to_owned())).or_default() += 1,
            None => self.no_call += 1,
        }
    }

    /// Prints the table; whether each number was met so often.
    pub fn print(&self, least: u64) -> bool {
        println!("number {:>9} {}", "all", CALLS.map(|call| format!("{call:>9}")).join(" "));
        let mut enough = true;
        for number in NUMBERS {
            let of_call =
                |call: &str| self.met.get(&(number, call.to_owned())).copied().unwrap_or(0);
            let all: u64 = CALLS.iter().map(|call| of_call(call)).sum();
            let by_call = CALLS.map(|call| format!("{:>9}", of_call(call)));
            println!("{number:>6} {all:>9} {}", by_call.join(" "));
            enough &= all >= least;
        }
        println!("     ? {:>9}", self.no_call);
        enough
    }
}
