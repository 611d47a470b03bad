//! A script: host calls in the line protocol. It is played on a card while it
//! is written, so that most calls fit the state, and some do not on purpose.

use std::io::{self, Write};

use super::damage::damage;
use super::page_writer::{write_page, write_walking_page};
use super::random::Random;
use super::response_writer::{bad_response, good_response};
use super::vocabulary::Vocabulary;
use crate::protocol::{Hex, Host};

/// Page "A" with one unit that exits.
const SMALLEST_PAGE: &str = "010a0201410a050b01314500";

struct ScriptWriter<'a, W> {
    random: Random,
    vocabulary: Vocabulary,
    host: Host,
    out: &'a mut W,
}

/// Writes the script of a number under a seed.
pub fn write_script(seed: u64, script: u64, out: &mut impl Write) -> io::Result<()> {
    let mut random = Random::new(seed, script);
    let vocabulary = Vocabulary::new(&mut random);
    ScriptWriter { random, vocabulary, host: Host::default(), out }.script()
}

impl<W: Write> ScriptWriter<'_, W> {
    fn script(&mut self) -> io::Result<()> {
        self.call("create".to_owned())?;
        if self.random.percent(4) {
            // The most steps there may be, for a page that surely ends.
            self.call(format!("load {SMALLEST_PAGE}"))?;
            self.call(format!("run {}", u32::MAX))?;
        }
        for _ in 0..self.random.below(4) {
            self.environment()?;
        }
        for _ in 0..self.random.between(2, 7) {
            if self.random.percent(8) {
                self.walk()?;
            } else {
                self.load()?;
            }
            for _ in 0..self.random.between(2, 14) {
                match (self.host.machine().is_running(), self.host.machine().command()) {
                    (false, _) => break,
                    (true, None) => self.run_on()?,
                    (true, Some(_)) => self.respond()?,
                }
            }
            if self.host.machine().is_running() && self.random.percent(90) {
                self.call("end".to_owned())?;
            }
            for _ in 0..self.random.below(5) {
                match self.host.machine().is_running() {
                    true => self.any_call()?,
                    false => self.at_rest()?,
                }
            }
        }
        Ok(())
    }

    /// Writes a call and plays it.
    fn call(&mut self, line: String) -> io::Result<()> {
        self.host.answer_line(line.as_bytes(), &mut Vec::new());
        writeln!(self.out, "{line}")
    }

    fn load(&mut self) -> io::Result<()> {
        let page = write_page(&mut self.random, &self.vocabulary, self.host.machine());
        let bytes = match self.random.percent(28) {
            true => damage(&mut self.random, page),
            false => page.to_bytes(),
        };
        let page = self.word(&bytes);
        self.call(format!("load {page}"))
    }

    /// A walk through the units of a page and back along the history.
    fn walk(&mut self) -> io::Result<()> {
        let page = write_walking_page(&mut self.random, &self.vocabulary, self.host.machine());
        self.call(format!("load {}", Hex(&page.to_bytes())))?;
        for general_result in [0x00, 0x11] {
            for _ in 0..self.random.between(4, 40) {
                match (self.host.machine().is_running(), self.host.machine().command()) {
                    (false, _) => return Ok(()),
                    (true, None) => self.call("run 9".to_owned())?,
                    (true, Some(_)) => self.call(format!("respond 8301{general_result:02x}"))?,
                }
            }
        }
        Ok(())
    }

    /// A page runs and waits for no response.
    fn run_on(&mut self) -> io::Result<()> {
        match self.random.weighted(&[44, 34, 14, 2, 6]) {
            0 => {
                let steps = self.steps();
                self.call(format!("run {steps}"))
            }
            1 => self.call("step".to_owned()),
            2 => self.read(),
            3 => self.call("end".to_owned()),
            _ => self.any_call(),
        }
    }

    /// Pages may go round for ever, so the number of steps is kept low.
    fn steps(&mut self) -> usize {
        match self.random.weighted(&[5, 30, 40, 25]) {
            0 => 0,
            1 => self.random.between(1, 3),
            2 => self.random.between(4, 20),
            _ => self.random.between(21, 200),
        }
    }

    /// A command waits for its response.
    fn respond(&mut self) -> io::Result<()> {
        match self.random.weighted(&[76, 8, 8, 2, 6]) {
            0 => self.respond_with(good_response),
            1 => self.respond_with(bad_response),
            2 => self.read(),
            3 => self.call("end".to_owned()),
            _ => self.any_call(),
        }
    }

    fn respond_with(&mut self, writer: fn(&mut Random, &Vocabulary) -> Vec<u8>) -> io::Result<()> {
        let response = writer(&mut self.random, &self.vocabulary);
        let response = self.word(&response);
        self.call(format!("respond {response}"))
    }

    fn at_rest(&mut self) -> io::Result<()> {
        match self.random.weighted(&[60, 25, 15]) {
            0 => self.read(),
            1 => self.environment(),
            _ => self.any_call(),
        }
    }

    /// A call that need not fit the state, or a line that is no call.
    fn any_call(&mut self) -> io::Result<()> {
        match self.random.below(10) {
            0 => self.call("step".to_owned()),
            1 => {
                let steps = self.random.below(4);
                self.call(format!("run {steps}"))
            }
            2 => self.call("end".to_owned()),
            3 | 4 => self.respond_with(good_response),
            5 => self.call(format!("load {SMALLEST_PAGE}")),
            6 | 7 => self.environment(),
            8 => self.read(),
            _ => {
                let lines = [
                    "",
                    "# a remark",
                    "halt",
                    "load",
                    "load 0",
                    "load 0g",
                    "env 02",
                    "env 5 00",
                    "env 100 00",
                    "run",
                    "run -1",
                    "run 4294967296",
                    "run x",
                    "respond",
                    "read",
                    "read 4",
                    "read 8g",
                    "read 41 1",
                ];
                let line = *self.random.pick(&lines);
                self.call(line.to_owned())
            }
        }
    }

    fn environment(&mut self) -> io::Result<()> {
        let number = match self.random.weighted(&[12, 4, 60, 14, 10]) {
            0 => 0x02,
            1 => 0x05,
            2 => *self.random.pick(&self.vocabulary.environment),
            3 => self.random.below(64) as u8,
            _ => self.random.byte(),
        };
        let value = match (number, self.random.weighted(&[85, 10, 5])) {
            // Most of the script's command types are allowed.
            (0x02, 0) => {
                let mut allowed = self.vocabulary.command_types.clone();
                if self.random.percent(35) {
                    allowed.remove(self.random.below(allowed.len()));
                }
                allowed
            }
            (_, 0) => {
                let count = self.random.below(4);
                self.random.bytes(count)
            }
            (_, 1) => Vec::new(),
            _ => vec![0x21; self.random.between(253, 257)],
        };
        let value = self.word(&value);
        self.call(format!("env {number:02x} {value}"))
    }

    fn read(&mut self) -> io::Result<()> {
        let service = match self.random.weighted(&[85, 10, 5]) {
            0 => Some(self.random.pick(&self.vocabulary.services).clone()),
            1 => None,
            _ => Some(vec![0x41; 17]),
        };
        // Mostly a number that is defined, and one that pages write.
        let areas = if self.random.percent(70) { 0x40..=0xBF } else { 0x00..=0xFF };
        let machine = self.host.machine();
        let is_defined = |number: &u8| machine.read(*number, service.as_deref()).is_some();
        let defined: Vec<u8> = areas.filter(is_defined).collect();
        let number = match self.random.weighted(&[60, 30, 10]) {
            0 if !defined.is_empty() => *self.random.pick(&defined),
            0 | 1 => self.vocabulary.number(&mut self.random),
            _ => 0x05,
        };
        match service {
            Some(service) => self.call(format!("read {number:02x} {}", Hex(&service))),
            None => self.call(format!("read {number:02x}")),
        }
    }

    /// A word of bytes, in either case of digits.
    fn word(&mut self, bytes: &[u8]) -> String {
        let word = Hex(bytes).to_string();
        match self.random.percent(3) {
            true => word.to_uppercase(),
            false => word,
        }
    }
}
