//! A page the loader accepted: its bytes, its parameters, and walks over its
//! units and handler modifiers.

use std::ops::Range;

use crate::tlv::{split_length_value, Tlv};
use crate::value::{index, kind_of_bits, ValueView};

/// What parts the page identification from the anchor in a reference (7.3).
pub const SEPARATOR: u8 = 0x23;

/// The parameters are read once, at the load; units are found by a walk.
#[derive(Clone, Debug)]
pub struct Page {
    bytes: Vec<u8>,
    page: Tlv,
    keep_all: bool,
    kind: u8,
    identification: Range<usize>,
    unlock: Option<Range<usize>>,
    one_time_password: Option<Range<usize>>,
    keep_alive_list: Option<Range<usize>>,
    service: Option<Range<usize>>,
    strings: Option<Range<usize>>,
}

/// Where a unit stands in its page.
#[derive(Clone, Copy, Debug)]
pub struct Unit {
    pub index: usize,
    tlv: Tlv,
    /// The place of its first byte code, or its end.
    pub first: usize,
    pub end: usize,
}

/// Where a branch leads: to a unit of this page, or by a reference out of it.
#[derive(Clone, Debug)]
pub enum Target {
    Unit(Unit),
    OtherPage(Vec<u8>),
}

impl Page {
    /// Takes a page that the loader accepted.
    pub fn new(accepted: &[u8]) -> Page {
        let bytes = accepted.to_vec();
        let page = Tlv::read(&bytes, 0, bytes.len()).expect("an accepted page");
        let (attribute, _) = page.attributes(&bytes).expect("an accepted page");
        let part = |tag| {
            page.inner(&bytes)
                .take_while(|tlv| tlv.tag <= 0x07)
                .find(|tlv| tlv.tag == tag)
                .map(|tlv| tlv.value..tlv.end)
        };
        Page {
            keep_all: attribute & 0b1 != 0,
            kind: kind_of_bits(attribute >> 1),
            identification: part(0x02).expect("an accepted page"),
            // The byte before the unlock code is ignored (7.1.3).
            unlock: part(0x03).map(|part| part.start + 1..part.end),
            one_time_password: part(0x04),
            keep_alive_list: part(0x05),
            service: part(0x06),
            strings: part(0x07),
            page,
            bytes,
        }
    }

    pub fn bytes(&self) -> &[u8] {
        &self.bytes
    }

    pub fn keep_all(&self) -> bool {
        self.keep_all
    }

    /// The value type of the page's strings, and of inline values of no type.
    pub fn kind(&self) -> u8 {
        self.kind
    }

    pub fn identification(&self) -> &[u8] {
        &self.bytes[self.identification.clone()]
    }

    pub fn unlock(&self) -> Option<&[u8]> {
        self.part(&self.unlock)
    }

    pub fn one_time_password(&self) -> Option<&[u8]> {
        self.part(&self.one_time_password)
    }

    pub fn keep_alive_list(&self) -> Option<&[u8]> {
        self.part(&self.keep_alive_list)
    }

    pub fn service(&self) -> Option<&[u8]> {
        self.part(&self.service)
    }

    fn part(&self, part: &Option<Range<usize>>) -> Option<&[u8]> {
        part.clone().map(|range| &self.bytes[range])
    }

    /// The element of the string pool that a number names (7.1.7).
    pub fn string(&self, number: u8) -> Option<ValueView<'_>> {
        let mut rest = self.part(&self.strings)?;
        for _ in 0..index(number) {
            rest = split_length_value(rest)?.1;
        }
        let (bytes, _) = split_length_value(rest)?;
        Some(ValueView { kind: self.kind, bytes })
    }

    pub fn first_unit(&self) -> Unit {
        self.find_unit(|_| true).expect("an accepted page")
    }

    /// Walks the units from the first to the one that is wanted.
    fn find_unit(&self, is_wanted: impl Fn(Tlv) -> bool) -> Option<Unit> {
        let (index, tlv) = self
            .page
            .inner(&self.bytes)
            .filter(|part| matches!(part.tag, 0x0A | 0x8A))
            .enumerate()
            .find(|&(_, tlv)| is_wanted(tlv))?;
        let first = tlv
            .inner(&self.bytes)
            .find(|part| !matches!(part.tag, 0x0B | 0x08 | 0x88))
            .map_or(tlv.end, |code| code.at);
        Some(Unit { index, tlv, first, end: tlv.end })
    }

    fn anchor(&self, unit: Tlv) -> Option<&[u8]> {
        let first = unit.inner(&self.bytes).next()?;
        (first.tag == 0x0B).then(|| first.bytes(&self.bytes))
    }

    /// What the history holds of a unit when it is left, if anything (4.6).
    pub fn history_entry(&self, unit: Unit) -> Option<Vec<u8>> {
        let (attribute, _) = unit.tlv.attributes(&self.bytes)?;
        if attribute & 0b1 != 0 {
            return None;
        }
        let anchor = self.anchor(unit.tlv)?;
        Some([self.identification(), &[SEPARATOR], anchor].concat())
    }

    /// The modifiers that stand at the head of the page.
    pub fn page_modifiers(&self) -> impl Iterator<Item = Tlv> + '_ {
        modifiers(self.page.inner(&self.bytes).skip_while(|tlv| tlv.tag <= 0x07))
    }

    /// The modifiers that stand at the head of a unit.
    pub fn unit_modifiers(&self, unit: Unit) -> impl Iterator<Item = Tlv> + '_ {
        modifiers(unit.tlv.inner(&self.bytes).skip_while(|tlv| tlv.tag == 0x0B))
    }

    /// The name in an Anchor Reference or a Page Reference.
    pub fn reference(&self, reference: Tlv) -> &[u8] {
        match reference.tag {
            0x12 => {
                let anchor_reference = reference.inner(&self.bytes).next();
                anchor_reference.expect("an accepted page").bytes(&self.bytes)
            }
            _ => reference.bytes(&self.bytes),
        }
    }

    /// Where a reference leads (7.3); `None` if it names this page and an anchor
    /// that none of its units holds.
    pub fn resolve(&self, reference: &[u8]) -> Option<Target> {
        let (page, anchor) = split_reference(reference)?;
        if !page.is_empty() && page != self.identification() {
            return Some(Target::OtherPage(reference.to_vec()));
        }
        let unit = match anchor {
            [] => Some(self.first_unit()),
            _ => self.find_unit(|unit| self.anchor(unit) == Some(anchor)),
        };
        unit.map(Target::Unit)
    }
}

fn modifiers(parts: impl Iterator<Item = Tlv>) -> impl Iterator<Item = Tlv> {
    parts.take_while(|tlv| matches!(tlv.tag, 0x08 | 0x88))
}

/// Page identification and anchor: a reference splits at its last '23'.
pub fn split_reference(reference: &[u8]) -> Option<(&[u8], &[u8])> {
    let separator = reference.iter().rposition(|&byte| byte == SEPARATOR)?;
    Some((&reference[..separator], &reference[separator + 1..]))
}
