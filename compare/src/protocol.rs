//! The line protocol: one host call a line, one answer line for each.

use std::fmt;
use std::io::{self, BufRead, BufReader, Read, Write};

use crate::machine::{Answer, LoadRefusal, Machine, Outcome, CALL_NOT_FITTING, DONE, UNDEFINED};

/// The longest line that can be a call, its end not counted.
const LINE_LIMIT: usize = 65_536;

/// A call of the host, as one line writes it.
#[derive(Clone, PartialEq, Eq, Debug)]
pub enum Call {
    Create,
    Environment(u8, Vec<u8>),
    Load(Vec<u8>),
    Step,
    Run(u32),
    Respond(Vec<u8>),
    End,
    Read(u8, Option<Vec<u8>>),
}

impl Call {
    /// `None` where the line is no call.
    pub fn parse(line: &[u8]) -> Option<Call> {
        let words: Vec<&[u8]> = line.split(|&byte| byte == b' ').collect();
        match words[..] {
            [b"create"] => Some(Call::Create),
            [b"env", number, value] => {
                Some(Call::Environment(parse_number(number)?, parse_bytes(value)?))
            }
            [b"load", page] => Some(Call::Load(parse_bytes(page)?)),
            [b"step"] => Some(Call::Step),
            [b"run", steps] => Some(Call::Run(parse_decimal(steps)?)),
            [b"respond", response] => Some(Call::Respond(parse_bytes(response)?)),
            [b"end"] => Some(Call::End),
            [b"read", number] => Some(Call::Read(parse_number(number)?, None)),
            [b"read", number, service] => {
                Some(Call::Read(parse_number(number)?, Some(parse_bytes(service)?)))
            }
            _ => None,
        }
    }
}

fn parse_digit(digit: u8) -> Option<u8> {
    char::from(digit).to_digit(16).map(|value| value as u8)
}

/// Hex digits in pairs, or '-' for no bytes.
fn parse_bytes(word: &[u8]) -> Option<Vec<u8>> {
    if word == b"-" {
        return Some(Vec::new());
    }
    if word.is_empty() || !word.len().is_multiple_of(2) {
        return None;
    }
    word.chunks_exact(2)
        .map(|pair| Some(parse_digit(pair[0])? << 4 | parse_digit(pair[1])?))
        .collect()
}

/// A variable's number: two hex digits.
fn parse_number(word: &[u8]) -> Option<u8> {
    match *word {
        [high, low] => Some(parse_digit(high)? << 4 | parse_digit(low)?),
        _ => None,
    }
}

fn parse_decimal(word: &[u8]) -> Option<u32> {
    // A sign is no digit here, though Rust would take it.
    if !word.iter().all(u8::is_ascii_digit) {
        return None;
    }
    std::str::from_utf8(word).ok()?.parse().ok()
}

/// Bytes as the protocol writes them: lower-case hex, '-' for none.
pub struct Hex<'a>(pub &'a [u8]);

impl Hex<'_> {
    fn append(&self, out: &mut Vec<u8>) {
        const DIGITS: &[u8; 16] = b"0123456789abcdef";
        if self.0.is_empty() {
            out.push(b'-');
        }
        for byte in self.0 {
            out.push(DIGITS[usize::from(byte >> 4)]);
            out.push(DIGITS[usize::from(byte & 0xF)]);
        }
    }
}

impl fmt::Display for Hex<'_> {
    fn fmt(&self, formatter: &mut fmt::Formatter) -> fmt::Result {
        let mut digits = Vec::new();
        self.append(&mut digits);
        formatter.write_str(&String::from_utf8_lossy(&digits))
    }
}

/// A card behind the line protocol.
#[derive(Default)]
pub struct Host {
    machine: Machine,
}

impl Host {
    /// Appends the answer to a line, if it has one.
    pub fn answer_line(&mut self, line: &[u8], out: &mut Vec<u8>) {
        if line.is_empty() || line[0] == b'#' {
            return;
        }
        match Call::parse(line) {
            Some(call) => self.answer(&call, out),
            None => out.push(b'?'),
        }
        out.push(b'\n');
    }

    /// Appends the answer to a call, without a line's end.
    pub fn answer(&mut self, call: &Call, out: &mut Vec<u8>) {
        let machine = &mut self.machine;
        match call {
            Call::Create => {
                *machine = Machine::create();
                append_words(out, &[&"create", &DONE]);
            }
            Call::Environment(number, value) => {
                append_words(out, &[&"env", &machine.set_environment(*number, value)]);
            }
            Call::Load(page) => match machine.load(page) {
                Ok(()) => append_words(out, &[&"load", &DONE, &"-"]),
                Err(LoadRefusal::NotFitting) => {
                    append_words(out, &[&"load", &CALL_NOT_FITTING, &"-"]);
                }
                Err(LoadRefusal::Fault(fault)) => {
                    append_words(out, &[&"load", &fault.number, &fault.offset]);
                }
            },
            Call::Step => {
                let step = machine.step();
                let outcome = outcome_word(step.answer.outcome);
                append_words(out, &[&"step", &step.answer.number, &outcome]);
                match step.place {
                    Some((unit, tag)) => {
                        append_words(out, &[&"", &unit, &format_args!("{tag:02x}")])
                    }
                    None => append_words(out, &[&"", &"-", &"-"]),
                }
                self.append_carried(step.answer, out);
            }
            Call::Run(steps) => {
                let run = machine.run(*steps);
                let outcome = outcome_word(run.answer.outcome);
                append_words(out, &[&"run", &run.answer.number, &outcome, &run.count]);
                self.append_carried(run.answer, out);
            }
            Call::Respond(response) => {
                let answer = machine.respond(response);
                append_words(out, &[&"respond", &answer.number, &outcome_word(answer.outcome)]);
                self.append_carried(answer, out);
            }
            Call::End => append_words(out, &[&"end", &machine.end()]),
            Call::Read(number, service) => match machine.read(*number, service.as_deref()) {
                Some(value) => {
                    append_words(out, &[&"read", &DONE, &value.kind, &""]);
                    Hex(value.bytes).append(out);
                }
                None => append_words(out, &[&"read", &UNDEFINED, &"-", &"-"]),
            },
        }
    }

    /// The command that went out and the reference of the page wanted.
    fn append_carried(&self, answer: Answer, out: &mut Vec<u8>) {
        let command = match answer.outcome {
            Outcome::Command => self.machine.command().unwrap_or_default(),
            _ => &[],
        };
        let wanted = match answer.outcome {
            Outcome::PageWanted => self.machine.wanted(),
            _ => &[],
        };
        for bytes in [command, wanted] {
            out.push(b' ');
            Hex(bytes).append(out);
        }
    }

    pub fn machine(&self) -> &Machine {
        &self.machine
    }
}

fn outcome_word(outcome: Outcome) -> &'static str {
    match outcome {
        Outcome::GoneOn => "on",
        Outcome::Command => "command",
        Outcome::PageWanted => "page",
        Outcome::Ended => "ended",
        Outcome::Refused => "refused",
    }
}

/// Appends words with a blank between them.
fn append_words(out: &mut Vec<u8>, words: &[&dyn fmt::Display]) {
    for (place, word) in words.iter().enumerate() {
        if place > 0 {
            out.push(b' ');
        }
        write!(out, "{word}").expect("writing to memory");
    }
}

/// Who answers lines.
pub trait Answers {
    /// Appends the answer to a line, if it has one.
    fn answer_line(&mut self, line: &[u8], out: &mut Vec<u8>);
}

impl Answers for Host {
    fn answer_line(&mut self, line: &[u8], out: &mut Vec<u8>) {
        Host::answer_line(self, line, out);
    }
}

/// Answers every line of the input by a new card.
pub fn serve(input: impl Read, output: impl Write) -> io::Result<()> {
    serve_by(&mut Host::default(), input, output)
}

/// Answers every line of the input, and writes out before it waits for more.
pub fn serve_by(
    host: &mut impl Answers,
    input: impl Read,
    mut output: impl Write,
) -> io::Result<()> {
    let mut input = BufReader::with_capacity(1 << 16, input);
    let mut line = Vec::new();
    let mut answers = Vec::new();
    loop {
        if input.buffer().is_empty() {
            output.write_all(&answers)?;
            output.flush()?;
            answers.clear();
        }
        let available = input.fill_buf()?;
        let end = available.iter().position(|&byte| byte == b'\n');
        let taken = end.unwrap_or(available.len());
        // Of a line that is too long no more is held than tells so.
        let held = taken.min(LINE_LIMIT + 1 - line.len());
        line.extend_from_slice(&available[..held]);
        let at_end = available.is_empty();
        input.consume(taken + usize::from(end.is_some()));
        if end.is_some() || at_end {
            if line.len() > LINE_LIMIT {
                answers.extend_from_slice(b"?\n");
            } else {
                host.answer_line(&line, &mut answers);
            }
            line.clear();
        }
        if at_end {
            output.write_all(&answers)?;
            return output.flush();
        }
    }
}
