//! The TLV format (clause 5): tags, lengths, attributes, and what a value holds
//! by its tag alone (clauses 7, 8 and 13).

/// Reads the length at `at`: its value and the place behind it. `None` where it
/// has none of the three forms or runs past `end`.
pub fn read_length(bytes: &[u8], at: usize, end: usize) -> Option<(usize, usize)> {
    match *bytes.get(at..end)? {
        [short @ 0..=0x7F, ..] => Some((usize::from(short), at + 1)),
        [0x81, low, ..] => Some((usize::from(low), at + 2)),
        [0x82, high, low, ..] => Some((usize::from(high) << 8 | usize::from(low), at + 3)),
        _ => None,
    }
}

/// Appends a length in its shortest form; Get Length may need '83' (8.9).
pub fn append_length(length: usize, out: &mut Vec<u8>) {
    let [.., high, middle, low] = length.to_be_bytes();
    match length {
        0..=0x7F => out.push(low),
        0x80..=0xFF => out.extend([0x81, low]),
        0x100..=0xFFFF => out.extend([0x82, middle, low]),
        _ => out.extend([0x83, high, middle, low]),
    }
}

/// One TLV: its tag, the place of the tag, and where its value begins and ends.
#[derive(Clone, Copy, Debug)]
pub struct Tlv {
    pub tag: u8,
    pub at: usize,
    pub value: usize,
    pub end: usize,
}

/// What stands in a value behind its attributes and fixed bytes.
#[derive(Clone, Copy, PartialEq, Eq, Debug)]
pub enum Content {
    Tlvs,
    /// A TLV, then any count of a number and a TLV (8.1).
    NumberedTlvs,
    /// The Simple TLVs and indicators of a command (8.7.4).
    SimpleTlvs,
    /// Length-value pairs (7.1.7).
    Strings,
    /// Substitution pairs (6.3).
    Pairs,
    Data,
}

impl Tlv {
    /// The TLV at `at`, if it ends inside the container that ends at `end`.
    pub fn read(bytes: &[u8], at: usize, end: usize) -> Option<Tlv> {
        let tag = *bytes.get(at)?;
        let (length, value) = read_length(bytes, at + 1, end)?;
        (length <= end - value).then_some(Tlv { tag, at, value, end: value + length })
    }

    pub fn bytes<'a>(&self, bytes: &'a [u8]) -> &'a [u8] {
        &bytes[self.value..self.end]
    }

    /// The first attribute byte (0 where the tag has none) and the place behind
    /// the last one (5.3).
    pub fn attributes(&self, bytes: &[u8]) -> Option<(u8, usize)> {
        if !has_attributes(self.tag) {
            return Some((0, self.value));
        }
        let value = self.bytes(bytes);
        let last = value.iter().position(|byte| byte & 0x80 == 0)?;
        Some((value[0], self.value + last + 1))
    }

    /// What the value holds and where that begins, outside a command. `None`
    /// where attributes or fixed bytes run past the value.
    pub fn content(&self, bytes: &[u8]) -> Option<(Content, usize)> {
        let (attribute, head) = self.attributes(bytes)?;
        let (fixed, content) = layout(self.tag, attribute);
        (head + fixed <= self.end).then_some((content, head + fixed))
    }

    /// The same for a TLV of a command: all are data but the Simple TLV
    /// Indicator with its result tag (8.7.3).
    pub fn simple_content(&self) -> Option<(Content, usize)> {
        match self.tag {
            INDICATOR if self.value < self.end => Some((Content::Pairs, self.value + 1)),
            INDICATOR => None,
            _ => Some((Content::Data, self.value)),
        }
    }

    /// The TLVs held by a TLV of an accepted page.
    pub fn inner<'a>(&self, bytes: &'a [u8]) -> Tlvs<'a> {
        let (_, body) = self.content(bytes).expect("an accepted page");
        Tlvs::new(bytes, body, self.end)
    }
}

/// The tag of a Simple TLV Indicator in a command (8.7.3).
pub const INDICATOR: u8 = 0x00;

fn has_attributes(tag: u8) -> bool {
    matches!(
        tag,
        0x81 | 0x88..=0x8A | 0x8E | 0x8F | 0x93 | 0x95 | 0xC3 | 0xC5..=0xC7 | 0xCA | 0xCB
    )
}

/// How many fixed bytes follow the attributes, and what follows those.
fn layout(tag: u8, attribute: u8) -> (usize, Content) {
    match tag {
        0x01 | 0x81 | 0x0A | 0x8A | 0x10..=0x13 | 0x93 | 0x16 => (0, Content::Tlvs),
        0x43 | 0xC3 | 0x45 | 0xC5 | 0x4A | 0xCA => (0, Content::Tlvs),
        0x09 | 0x89 | 0x41 | 0x44 | 0x48 | 0x4B | 0xCB => (1, Content::Tlvs),
        0x08 | 0x88 | 0x47 | 0xC7 | 0x49 => (2, Content::Tlvs),
        // Type, qualifier and destination; one number for each of b1 and b3.
        0x46 | 0xC6 => {
            let numbers = (attribute & 0b101).count_ones() as usize;
            (3 + numbers, Content::SimpleTlvs)
        }
        0x40 => (1, Content::NumberedTlvs),
        0x07 => (0, Content::Strings),
        0x0E | 0x8E | 0x0F | 0x8F | 0x14 => (0, Content::Pairs),
        0x03 => (1, Content::Data),
        0x42 => (4, Content::Data),
        _ => (0, Content::Data),
    }
}

/// The TLVs that stand one behind the other up to `end`.
#[derive(Clone)]
pub struct Tlvs<'a> {
    bytes: &'a [u8],
    at: usize,
    end: usize,
}

impl<'a> Tlvs<'a> {
    pub fn new(bytes: &'a [u8], at: usize, end: usize) -> Self {
        Tlvs { bytes, at, end }
    }
}

impl Iterator for Tlvs<'_> {
    type Item = Tlv;

    fn next(&mut self) -> Option<Tlv> {
        let tlv = Tlv::read(self.bytes, self.at, self.end)?;
        self.at = tlv.end;
        Some(tlv)
    }
}

/// The pairs of a Set Variable (8.1): a variable's number and what it is set to.
#[derive(Clone)]
pub struct NumberedTlvs<'a> {
    bytes: &'a [u8],
    at: usize,
    end: usize,
}

impl<'a> NumberedTlvs<'a> {
    pub fn new(bytes: &'a [u8], set_variable: Tlv) -> Self {
        NumberedTlvs { bytes, at: set_variable.value, end: set_variable.end }
    }

    /// Whether all bytes were taken in pairs so far.
    pub fn is_done(&self) -> bool {
        self.at == self.end
    }
}

impl Iterator for NumberedTlvs<'_> {
    type Item = (u8, Tlv);

    fn next(&mut self) -> Option<(u8, Tlv)> {
        let tlv = Tlv::read(self.bytes, self.at + 1, self.end)?;
        let number = self.bytes[self.at];
        self.at = tlv.end;
        Some((number, tlv))
    }
}

/// One part of a running text or of a list of variables.
#[derive(Clone, Copy, Debug)]
pub enum Piece<'a> {
    Constant(&'a [u8]),
    Variable(u8),
}

/// The pieces of substitution pairs (6.3), or of a list's numbers (7.4).
#[derive(Clone)]
pub struct Pieces<'a> {
    rest: &'a [u8],
    list: bool,
}

impl<'a> Pieces<'a> {
    pub fn of_pairs(pairs: &'a [u8]) -> Self {
        Pieces { rest: pairs, list: false }
    }

    pub fn of_list(numbers: &'a [u8]) -> Self {
        Pieces { rest: numbers, list: true }
    }

    /// Whether all bytes were taken in valid pieces so far.
    pub fn is_done(&self) -> bool {
        self.rest.is_empty()
    }

    /// The numbers of the variables among the pieces.
    pub fn numbers(self) -> impl Iterator<Item = u8> + 'a {
        self.filter_map(|piece| match piece {
            Piece::Variable(number) => Some(number),
            Piece::Constant(_) => None,
        })
    }
}

impl<'a> Iterator for Pieces<'a> {
    type Item = Piece<'a>;

    fn next(&mut self) -> Option<Piece<'a>> {
        match *self.rest {
            [number, ref rest @ ..] if self.list => {
                self.rest = rest;
                Some(Piece::Variable(number))
            }
            [0xC0..=0xC7, number, ref rest @ ..] => {
                self.rest = rest;
                Some(Piece::Variable(number))
            }
            _ => {
                let (constant, rest) = split_length_value(self.rest)?;
                self.rest = rest;
                Some(Piece::Constant(constant))
            }
        }
    }
}

/// Takes a length and as many bytes off the front.
pub fn split_length_value(bytes: &[u8]) -> Option<(&[u8], &[u8])> {
    let (length, value) = read_length(bytes, 0, bytes.len())?;
    bytes[value..].split_at_checked(length)
}
