//! The variables that outlive a step: environment, permanent and temporary.

use crate::value::{area, index, Area, Value, ValueView, BINARY, VALUE_LIMIT};

/// Records and value bytes of the permanent and of the temporary area, each.
const RECORD_LIMIT: usize = 64;
const ROOM: usize = 2048;

const ERROR_CODE: usize = 0x05;
const COMMAND_FILTER: usize = 0x02;

/// A permanent variable, known by its number and Service ID together (6.1.2).
#[derive(Clone, Debug)]
struct Record {
    number: u8,
    service: Vec<u8>,
    value: Value,
}

#[derive(Clone, Debug)]
pub struct Store {
    environment: [Option<Value>; 64],
    permanent: Vec<Record>,
    temporary: [Option<Value>; 64],
}

/// The value, the record count or the room would pass its limit.
#[derive(Clone, Copy, PartialEq, Eq, Debug)]
pub struct Full;

impl Default for Store {
    fn default() -> Self {
        Store {
            environment: [const { None }; 64],
            permanent: Vec::new(),
            temporary: [const { None }; 64],
        }
    }
}

impl Store {
    /// The value of a variable; a page string lies in its page, not here.
    pub fn value(&self, number: u8, service: Option<&[u8]>) -> Option<ValueView<'_>> {
        let value = match area(number) {
            Area::Environment => self.environment[index(number)].as_ref(),
            Area::Permanent => {
                let record = self.permanent_place(number, service?)?;
                Some(&self.permanent[record].value)
            }
            Area::Temporary => self.temporary[index(number)].as_ref(),
            Area::PageString => None,
        };
        value.map(Value::view)
    }

    /// Writes a permanent or temporary variable and hands back what it held.
    pub fn write(
        &mut self,
        number: u8,
        service: Option<&[u8]>,
        value: Value,
    ) -> Result<Option<Value>, Full> {
        let old = self.value(number, service).map(|old| old.bytes.len());
        let (records, room) = match area(number) {
            Area::Permanent => used(self.permanent.iter().map(|record| &record.value)),
            _ => used(self.temporary.iter().flatten()),
        };
        // A replaced value gives back its old length first.
        let room = room - old.unwrap_or(0) + value.bytes.len();
        let records = records + usize::from(old.is_none());
        if value.bytes.len() > VALUE_LIMIT || records > RECORD_LIMIT || room > ROOM {
            return Err(Full);
        }
        Ok(self.put(number, service, Some(value)))
    }

    /// Writes a value for each item in turn, or none at all; a later one is made
    /// from what an earlier one wrote.
    pub fn write_all<T>(
        &mut self,
        service: Option<&[u8]>,
        items: impl IntoIterator<Item = T>,
        make: impl Fn(&Store, T) -> (u8, Value),
    ) -> Result<(), Full> {
        let mut undo = Vec::new();
        for item in items {
            let (number, value) = make(self, item);
            match self.write(number, service, value) {
                Ok(old) => undo.push((number, old)),
                Err(full) => {
                    for (number, old) in undo.into_iter().rev() {
                        self.put(number, service, old);
                    }
                    return Err(full);
                }
            }
        }
        Ok(())
    }

    fn put(&mut self, number: u8, service: Option<&[u8]>, value: Option<Value>) -> Option<Value> {
        if area(number) == Area::Temporary {
            return std::mem::replace(&mut self.temporary[index(number)], value);
        }
        let service = service.expect("a page without a Service ID is refused before it writes");
        match (self.permanent_place(number, service), value) {
            (Some(place), Some(value)) => {
                Some(std::mem::replace(&mut self.permanent[place].value, value))
            }
            (Some(place), None) => Some(self.permanent.remove(place).value),
            (None, Some(value)) => {
                self.permanent.push(Record { number, service: service.to_vec(), value });
                None
            }
            (None, None) => None,
        }
    }

    fn permanent_place(&self, number: u8, service: &[u8]) -> Option<usize> {
        self.permanent
            .iter()
            .position(|record| record.number == number && record.service == service)
    }

    /// An environment variable is written by the host alone, as binary.
    pub fn set_environment(&mut self, number: u8, bytes: &[u8]) {
        self.environment[index(number)] = Some(Value { kind: BINARY, bytes: bytes.to_vec() });
    }

    /// The code of the last byte code (12.1).
    pub fn set_error_code(&mut self, code: [u8; 2]) {
        match &mut self.environment[ERROR_CODE] {
            Some(value) => value.bytes.copy_from_slice(&code),
            free => *free = Some(Value { kind: BINARY, bytes: code.to_vec() }),
        }
    }

    /// Whether variable '02' allows the command type; undefined allows all.
    pub fn allows_command(&self, command_type: u8) -> bool {
        self.environment[COMMAND_FILTER]
            .as_ref()
            .is_none_or(|allowed| allowed.bytes.contains(&command_type))
    }

    /// Deletes the temporary variables that a Keep Alive List does not name.
    pub fn keep_listed(&mut self, numbers: &[u8]) {
        let listed = |place: usize| {
            numbers.iter().any(|&number| area(number) == Area::Temporary && index(number) == place)
        };
        for (place, slot) in self.temporary.iter_mut().enumerate() {
            if slot.is_some() && !listed(place) {
                *slot = None;
            }
        }
    }

    pub fn clear_temporary(&mut self) {
        self.temporary.fill(None);
    }
}

/// How many values there are, and their bytes in all.
fn used<'a>(values: impl Iterator<Item = &'a Value>) -> (usize, usize) {
    values.fold((0, 0), |(records, room), value| (records + 1, room + value.bytes.len()))
}
