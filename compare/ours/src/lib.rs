//! The proved interpreter behind the line protocol, through its calls for C.

pub mod calls;

use calls::{Card, Number, COMMAND_LENGTH};
use compare::protocol::{Answers, Call, Hex};

const COMMAND: u8 = 1;
const OTHER_PAGE: u8 = 2;
const OUTCOMES: [&str; 5] = ["on", "command", "page", "ended", "refused"];
/// From here on a refusal leaves all as it was.
const BUFFER: u8 = 32;

#[derive(Default)]
pub struct Host {
    card: Card,
}

impl Answers for Host {
    fn answer_line(&mut self, line: &[u8], out: &mut Vec<u8>) {
        if line.is_empty() || line[0] == b'#' {
            return;
        }
        let answer = Call::parse(line).map_or("?".to_owned(), |call| self.answer(&call));
        out.extend_from_slice(answer.as_bytes());
        out.push(b'\n');
    }
}

impl Host {
    fn answer(&mut self, call: &Call) -> String {
        match call {
            Call::Create => format!("create {}", self.card.create().answer()),
            Call::Environment(number, value) => {
                format!("env {}", self.card.set_environment(*number, value).answer())
            }
            Call::Load(page) => self.load(page),
            Call::Step => self.step(),
            Call::Run(most) => {
                let number = self.card.run(*most);
                let count = number.count();
                format!("run {} {count} {}", told(number), self.carried(number))
            }
            Call::Respond(response) => {
                let number = self.card.respond(response);
                format!("respond {} {}", told(number), self.carried(number))
            }
            Call::End => format!("end {}", self.card.end().answer()),
            Call::Read(number, service) => self.read(*number, service.as_deref().unwrap_or(&[])),
        }
    }

    fn load(&mut self, page: &[u8]) -> String {
        let number = self.card.load(page);
        match number.answer() {
            answer @ 1..=7 => format!("load {answer} {}", number.size()),
            answer => format!("load {answer} -"),
        }
    }

    fn step(&mut self) -> String {
        let number = self.card.step();
        let place = match number.answer() < BUFFER {
            true => format!("{} {:02x}", number.unit(), number.tag()),
            false => "- -".to_owned(),
        };
        format!("step {} {place} {}", told(number), self.carried(number))
    }

    fn read(&self, number: u8, service: &[u8]) -> String {
        let mut value = [0; COMMAND_LENGTH];
        let number = self.card.read(number, service, &mut value);
        match number.answer() {
            0 => format!("read 0 {} {}", number.outcome(), Hex(&value[..number.size()])),
            answer => format!("read {answer} - -"),
        }
    }

    /// The command that went out and the reference of the page wanted.
    fn carried(&self, number: Number) -> String {
        let command = match number.outcome() {
            COMMAND => &self.card.command()[..number.size()],
            _ => &[],
        };
        let wanted = match number.outcome() {
            OTHER_PAGE => self.card.wanted(),
            _ => &[],
        };
        format!("{} {}", Hex(command), Hex(wanted))
    }
}

fn told(number: Number) -> String {
    format!("{} {}", number.answer(), OUTCOMES[usize::from(number.outcome())])
}
