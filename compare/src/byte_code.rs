//! The byte codes of the base (clauses 8.1, 8.4 to 8.7, 8.9). Refusals are
//! judged in the order 16, 19, 17, 22, 18, each over the whole byte code.

use crate::command::Execute;
use crate::handler::{self, Action};
use crate::page::{Page, Target, Unit};
use crate::scope::{is_closed, is_closed_to_write, pieces, Scope};
use crate::store::{Full, Store};
use crate::tlv::{append_length, NumberedTlvs, Tlv};
use crate::value::{area, Area, Value, BINARY};

/// Why a byte code or a response is refused; the page ends with it.
#[derive(Clone, Copy, PartialEq, Eq, Debug)]
pub enum Refusal {
    Syntax,
    UndefinedVariable,
    UndefinedAnchor,
    Memory,
    Security,
    NotAllowed,
}

impl Refusal {
    /// The number of document 01's table.
    pub fn number(self) -> u8 {
        match self {
            Refusal::Syntax => 16,
            Refusal::UndefinedVariable | Refusal::UndefinedAnchor => 17,
            Refusal::Memory => 18,
            Refusal::Security => 19,
            Refusal::NotAllowed => 22,
        }
    }

    /// The code of clause 12.3.
    pub fn error_code(self) -> [u8; 2] {
        match self {
            Refusal::Syntax => [0x6F, 0x01],
            Refusal::UndefinedAnchor => [0x6F, 0x02],
            Refusal::Memory => [0x6F, 0x03],
            Refusal::Security => [0x6F, 0x04],
            Refusal::UndefinedVariable => [0x6F, 0x05],
            Refusal::NotAllowed => [0x6F, 0x0A],
        }
    }
}

impl From<Full> for Refusal {
    fn from(_: Full) -> Self {
        Refusal::Memory
    }
}

/// Where a byte code that was done leads.
#[derive(Clone, Debug)]
pub enum Flow {
    Next,
    Branch(Target),
    Back,
    End,
    /// The same command goes out again.
    Repeat,
    Send(Vec<u8>),
}

/// Does one byte code of an accepted page.
pub fn perform(page: &Page, store: &mut Store, unit: Unit, code: Tlv) -> Result<Flow, Refusal> {
    match code.tag {
        0x40 => set_variable(page, store, code),
        0x43 | 0xC3 => Ok(Flow::Back),
        0x44 => branch_on_variable_value(Scope { page, store }, code),
        0x45 | 0xC5 => exit(page, unit, code),
        0x46 | 0xC6 => execute(Scope { page, store }, code),
        0x48 => get_length(page, store, code),
        _ => unreachable!("an accepted page holds byte codes of the base"),
    }
}

/// What the handler's action leads to; a branch to an unknown anchor is refused.
pub fn follow_action(page: &Page, action: Action) -> Result<Flow, Refusal> {
    match action {
        Action::Next => Ok(Flow::Next),
        Action::End => Ok(Flow::End),
        Action::Back => Ok(Flow::Back),
        Action::Retry => Ok(Flow::Repeat),
        Action::Branch(reference) => branch(page, reference),
    }
}

fn branch(page: &Page, reference: &[u8]) -> Result<Flow, Refusal> {
    page.resolve(reference).map(Flow::Branch).ok_or(Refusal::UndefinedAnchor)
}

fn refuse_if(condition: bool, refusal: Refusal) -> Result<(), Refusal> {
    match condition {
        true => Err(refusal),
        false => Ok(()),
    }
}

/// Set Variable (8.1): the pairs are done in turn, or none of them.
fn set_variable(page: &Page, store: &mut Store, code: Tlv) -> Result<Flow, Refusal> {
    let pairs = NumberedTlvs::new(page.bytes(), code);
    let reads = |source| pieces(page, source).numbers();
    let writes_string = pairs.clone().any(|(number, _)| area(number) == Area::PageString);
    refuse_if(writes_string, Refusal::Syntax)?;
    let touches_closed = pairs.clone().any(|(number, source)| {
        is_closed_to_write(page, number) || reads(source).any(|read| is_closed(page, read))
    });
    refuse_if(touches_closed, Refusal::Security)?;
    for (place, (_, source)) in pairs.clone().enumerate() {
        let scope = Scope { page, store };
        let written_before = |read| pairs.clone().take(place).any(|(number, _)| number == read);
        let reads_undefined =
            reads(source).any(|read| scope.value(read).is_none() && !written_before(read));
        refuse_if(reads_undefined, Refusal::UndefinedVariable)?;
    }
    store.write_all(page.service(), pairs, |store, (number, source)| {
        (number, Scope { page, store }.gather(source))
    })?;
    Ok(Flow::Next)
}

/// Branch On Variable Value (8.5): the first case with an equal value.
fn branch_on_variable_value(scope: Scope, code: Tlv) -> Result<Flow, Refusal> {
    let page = scope.page;
    let number = page.bytes()[code.value];
    let parts = code.inner(page.bytes());
    let cases = parts.clone().filter(|part| part.tag == 0x11).map(|case| {
        let mut case_parts = case.inner(page.bytes());
        let source = case_parts.next().expect("an accepted page");
        (source, case_parts.next().expect("an accepted page"))
    });
    let is_empty_list = |source: Tlv| source.tag == 0x0D && source.value == source.end;
    refuse_if(cases.clone().any(|(source, _)| is_empty_list(source)), Refusal::Syntax)?;
    // Of a list the first number alone counts.
    let reads = |source: Tlv| match source.tag {
        0x0D => pieces(page, Tlv { end: source.value + 1, ..source }),
        _ => pieces(page, source),
    };
    let touches_closed = is_closed(page, number)
        || cases
            .clone()
            .any(|(source, _)| reads(source).numbers().any(|read| is_closed(page, read)));
    refuse_if(touches_closed, Refusal::Security)?;
    let value = scope.value(number).ok_or(Refusal::UndefinedVariable)?;
    let mut text = Vec::new();
    for (source, reference) in cases {
        let reads_undefined = reads(source).numbers().any(|read| scope.value(read).is_none());
        refuse_if(reads_undefined, Refusal::UndefinedVariable)?;
        text.clear();
        scope.append(reads(source), &mut text);
        if text == value.bytes {
            return branch(page, page.reference(reference));
        }
    }
    match parts.last() {
        Some(otherwise) if otherwise.tag == 0x12 => branch(page, page.reference(otherwise)),
        _ => Ok(Flow::Next),
    }
}

/// Exit (8.6): the handler decides as for '10', unless b1 terminates at once.
fn exit(page: &Page, unit: Unit, code: Tlv) -> Result<Flow, Refusal> {
    let (attribute, _) = code.attributes(page.bytes()).expect("an accepted page");
    if attribute & 0b1 != 0 {
        return Ok(Flow::End);
    }
    match handler::action(page, unit, 0x10) {
        // No command is in hand to be repeated.
        Action::Retry => Ok(Flow::End),
        action => follow_action(page, action),
    }
}

/// Execute USAT Command (8.7), up to the command that goes out.
fn execute(scope: Scope, code: Tlv) -> Result<Flow, Refusal> {
    let page = scope.page;
    let execute = Execute::read(page, code);
    let writes_string = execute.results().any(|number| area(number) == Area::PageString);
    refuse_if(writes_string, Refusal::Syntax)?;
    let touches_closed = execute.results().any(|number| is_closed_to_write(page, number))
        || execute.numbers_read(page).any(|number| is_closed(page, number));
    refuse_if(touches_closed, Refusal::Security)?;
    let reads_undefined = execute.numbers_read(page).any(|number| scope.value(number).is_none());
    refuse_if(reads_undefined, Refusal::UndefinedVariable)?;
    refuse_if(!scope.store.allows_command(execute.command_type), Refusal::NotAllowed)?;
    execute.build(scope).map(Flow::Send).ok_or(Refusal::Memory)
}

/// Get Length (8.9): the BER length of all the list's values together.
fn get_length(page: &Page, store: &mut Store, code: Tlv) -> Result<Flow, Refusal> {
    let number = page.bytes()[code.value];
    let list = code.inner(page.bytes()).next().expect("an accepted page");
    let reads = list.bytes(page.bytes()).iter();
    refuse_if(area(number) == Area::PageString, Refusal::Syntax)?;
    let touches_closed =
        is_closed_to_write(page, number) || reads.clone().any(|&read| is_closed(page, read));
    refuse_if(touches_closed, Refusal::Security)?;
    let mut length = 0;
    for &read in reads {
        let value = Scope { page, store }.value(read).ok_or(Refusal::UndefinedVariable)?;
        length += value.bytes.len();
    }
    let mut bytes = Vec::new();
    append_length(length, &mut bytes);
    store.write(number, page.service(), Value { kind: BINARY, bytes })?;
    Ok(Flow::Next)
}
