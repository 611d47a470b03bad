//! Values with their types (6.2) and the areas of the variables (6.1).

pub const UNKNOWN: u8 = 0;
pub const UNPACKED: u8 = 1;
pub const PACKED: u8 = 2;
pub const BINARY: u8 = 3;
pub const UCS2: u8 = 4;

/// The longest value of a variable.
pub const VALUE_LIMIT: usize = 255;

#[derive(Clone, PartialEq, Eq, Debug)]
pub struct Value {
    pub kind: u8,
    pub bytes: Vec<u8>,
}

/// A value seen where it lies: in the store or in the page's string pool.
#[derive(Clone, Copy, PartialEq, Eq, Debug)]
pub struct ValueView<'a> {
    pub kind: u8,
    pub bytes: &'a [u8],
}

impl Value {
    pub fn view(&self) -> ValueView<'_> {
        ValueView { kind: self.kind, bytes: &self.bytes }
    }
}

/// A three-bit value type; those reserved for future use count as unknown.
pub fn kind_of_bits(bits: u8) -> u8 {
    match bits & 0b111 {
        kind @ UNKNOWN..=UCS2 => kind,
        _ => UNKNOWN,
    }
}

#[derive(Clone, Copy, PartialEq, Eq, Debug)]
pub enum Area {
    Environment,
    Permanent,
    Temporary,
    PageString,
}

/// The two high bits of a number name its area.
pub fn area(number: u8) -> Area {
    match number >> 6 {
        0 => Area::Environment,
        1 => Area::Permanent,
        2 => Area::Temporary,
        _ => Area::PageString,
    }
}

/// The number's index inside its area.
pub fn index(number: u8) -> usize {
    usize::from(number & 0x3F)
}
