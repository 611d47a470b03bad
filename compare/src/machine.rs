//! The card: its state and the calls of the host.

use crate::byte_code::{self, Flow, Refusal};
use crate::command::Execute;
use crate::handler;
use crate::history::History;
use crate::loader::{self, Fault};
use crate::page::{Page, Target, Unit};
use crate::response::Response;
use crate::store::Store;
use crate::tlv::Tlv;
use crate::value::{area, Area, ValueView, VALUE_LIMIT};

/// Numbers of document 01's table that a host's call can be answered with.
pub const DONE: u8 = 0;
pub const UNDEFINED: u8 = 17;
pub const MEMORY: u8 = 18;
pub const SECURITY: u8 = 19;
pub const CALL_NOT_FITTING: u8 = 33;
pub const RESPONSE_MALFORMED: u8 = 34;

const NO_ERROR: [u8; 2] = [0x00, 0x00];

/// A card at rest has no page running.
#[derive(Clone, Debug, Default)]
pub struct Machine {
    store: Store,
    history: History,
    /// The One Time Password over the kept variables, between two pages.
    guard: Option<Vec<u8>>,
    wanted: Vec<u8>,
    running: Option<Running>,
}

#[derive(Clone, Debug)]
struct Running {
    page: Page,
    unit: Unit,
    /// The place of the next byte code, or the unit's end.
    next: usize,
    /// The command that waits for its response.
    hand: Option<Vec<u8>>,
}

#[derive(Clone, Copy, PartialEq, Eq, Debug)]
pub enum Outcome {
    GoneOn,
    Command,
    PageWanted,
    Ended,
    Refused,
}

#[derive(Clone, Copy, PartialEq, Eq, Debug)]
pub struct Answer {
    pub number: u8,
    pub outcome: Outcome,
}

impl Answer {
    fn done(outcome: Outcome) -> Answer {
        Answer { number: DONE, outcome }
    }

    fn refused(number: u8) -> Answer {
        Answer { number, outcome: Outcome::Refused }
    }
}

/// A step's answer, and the unit and tag of the byte code where one was taken;
/// a unit's end has tag 0.
#[derive(Clone, Copy, PartialEq, Eq, Debug)]
pub struct Step {
    pub answer: Answer,
    pub place: Option<(usize, u8)>,
}

/// The last answer of several steps and how many were taken.
#[derive(Clone, Copy, PartialEq, Eq, Debug)]
pub struct Run {
    pub answer: Answer,
    pub count: u32,
}

#[derive(Clone, Copy, PartialEq, Eq, Debug)]
pub enum LoadRefusal {
    /// A page runs: number 33.
    NotFitting,
    Fault(Fault),
}

impl Machine {
    /// A new card, empty and at rest.
    pub fn create() -> Machine {
        Machine::default()
    }

    /// The host sets an environment variable; '05' is the machine's own.
    pub fn set_environment(&mut self, number: u8, value: &[u8]) -> u8 {
        if self.running.is_some() {
            return CALL_NOT_FITTING;
        }
        if area(number) != Area::Environment || number == 0x05 {
            return SECURITY;
        }
        if value.len() > VALUE_LIMIT {
            return MEMORY;
        }
        self.store.set_environment(number, value);
        DONE
    }

    /// Judges a page and starts it at its first unit.
    pub fn load(&mut self, bytes: &[u8]) -> Result<(), LoadRefusal> {
        if self.running.is_some() {
            return Err(LoadRefusal::NotFitting);
        }
        loader::judge(bytes).map_err(LoadRefusal::Fault)?;
        let page = Page::new(bytes);
        // Protected variables come over with the right unlock code, or go.
        if let Some(guard) = self.guard.take() {
            if page.unlock() != Some(&guard) {
                self.store.clear_temporary();
            }
        }
        self.wanted.clear();
        let unit = page.first_unit();
        self.running = Some(Running { page, unit, next: unit.first, hand: None });
        Ok(())
    }

    /// Does one byte code or meets the unit's end.
    pub fn step(&mut self) -> Step {
        let Some(running) = self.running.as_ref().filter(|running| running.hand.is_none()) else {
            return Step { answer: Answer::refused(CALL_NOT_FITTING), place: None };
        };
        let unit = running.unit;
        if running.next == unit.end {
            self.end_page();
            let answer = Answer::done(Outcome::Ended);
            return Step { answer, place: Some((unit.index, 0)) };
        }
        let code = running.byte_code();
        let flow = byte_code::perform(&running.page, &mut self.store, unit, code);
        let answer = self.follow(flow);
        Step { answer, place: Some((unit.index, code.tag)) }
    }

    /// Takes steps until one does not go on, at most `steps`.
    pub fn run(&mut self, steps: u32) -> Run {
        if self.running.as_ref().is_none_or(|running| running.hand.is_some()) {
            return Run { answer: Answer::refused(CALL_NOT_FITTING), count: 0 };
        }
        let mut run = Run { answer: Answer::done(Outcome::GoneOn), count: 0 };
        while run.count < steps && run.answer.outcome == Outcome::GoneOn {
            run.answer = self.step().answer;
            run.count += 1;
        }
        run
    }

    /// Hands in the terminal response to the command that waits.
    pub fn respond(&mut self, bytes: &[u8]) -> Answer {
        let Some(running) = self.running.as_ref().filter(|running| running.hand.is_some()) else {
            return Answer::refused(CALL_NOT_FITTING);
        };
        let Some(response) = Response::read(bytes) else {
            return Answer::refused(RESPONSE_MALFORMED);
        };
        let page = &running.page;
        let action = handler::action(page, running.unit, response.general_result);
        // The branch is judged (17) before the results are written (18).
        let flow = byte_code::follow_action(page, action).and_then(|flow| {
            let execute = Execute::read(page, running.byte_code());
            let results = response.results(execute);
            self.store.write_all(page.service(), results, |_, result| result)?;
            Ok(flow)
        });
        self.follow(flow)
    }

    /// The host ends the page.
    pub fn end(&mut self) -> u8 {
        if self.running.is_none() {
            return CALL_NOT_FITTING;
        }
        self.end_page();
        DONE
    }

    /// Reads a variable, a permanent one by its Service ID; kept variables are
    /// hidden while they are guarded.
    pub fn read(&self, number: u8, service: Option<&[u8]>) -> Option<ValueView<'_>> {
        match area(number) {
            Area::PageString => self.running.as_ref()?.page.string(number),
            Area::Temporary if self.guard.is_some() => None,
            _ => self.store.value(number, service),
        }
    }

    pub fn is_running(&self) -> bool {
        self.running.is_some()
    }

    /// The command that waits for its response.
    pub fn command(&self) -> Option<&[u8]> {
        self.running.as_ref()?.hand.as_deref()
    }

    /// The reference of the page last wanted, empty after a load.
    pub fn wanted(&self) -> &[u8] {
        &self.wanted
    }

    /// Carries out what a byte code or a response leads to.
    fn follow(&mut self, flow: Result<Flow, Refusal>) -> Answer {
        let running = self.running.as_mut().expect("a page runs");
        let flow = match flow {
            Ok(flow) => flow,
            Err(refusal) => {
                self.store.set_error_code(refusal.error_code());
                self.end_page();
                return Answer::refused(refusal.number());
            }
        };
        // A command that goes out, or goes out again, leaves '05' as it is.
        match flow {
            Flow::Send(command) => {
                running.hand = Some(command);
                return Answer::done(Outcome::Command);
            }
            Flow::Repeat => return Answer::done(Outcome::Command),
            _ => self.store.set_error_code(NO_ERROR),
        }
        let target = match flow {
            Flow::Next => {
                running.next = running.byte_code().end;
                running.hand = None;
                return Answer::done(Outcome::GoneOn);
            }
            Flow::Branch(target) => {
                self.history.branch(running.page.history_entry(running.unit));
                Some(target)
            }
            Flow::Back => self.history.back().map(|entry| {
                let here = running.page.resolve(entry);
                here.unwrap_or_else(|| Target::OtherPage(entry.to_vec()))
            }),
            Flow::End | Flow::Send(_) | Flow::Repeat => None,
        };
        match target {
            Some(Target::Unit(unit)) => {
                running.unit = unit;
                running.next = unit.first;
                running.hand = None;
                Answer::done(Outcome::GoneOn)
            }
            Some(Target::OtherPage(reference)) => {
                self.wanted = reference;
                self.end_page();
                Answer::done(Outcome::PageWanted)
            }
            None => {
                self.end_page();
                Answer::done(Outcome::Ended)
            }
        }
    }

    /// The keep rule (6.1.3.1) at any ending of the page.
    fn end_page(&mut self) {
        let Some(Running { page, .. }) = self.running.take() else {
            return;
        };
        match page.keep_alive_list() {
            Some(numbers) => self.store.keep_listed(numbers),
            None if page.keep_all() => {}
            None => self.store.clear_temporary(),
        }
        self.guard = page.one_time_password().map(<[u8]>::to_vec);
    }
}

impl Running {
    fn byte_code(&self) -> Tlv {
        Tlv::read(self.page.bytes(), self.next, self.unit.end).expect("an accepted page")
    }
}
