//! Judging a page before it may run: numbers 1 to 7 and their offsets.

use crate::page::{split_reference, SEPARATOR};
use crate::tlv::{split_length_value, Content, NumberedTlvs, Pieces, Tlv};
use crate::value::VALUE_LIMIT;

const PAGE_LIMIT: usize = 4096;
const LEVEL_LIMIT: usize = 8;
const UNIT_LIMIT: usize = 64;
const STRING_LIMIT: usize = 64;
const MODIFIER_LIMIT: usize = 32;
const NAME_LIMIT: usize = 32;
const CODE_LIMIT: usize = 16;

/// The number of document 01's table and the offset of the first such fault.
#[derive(Clone, Copy, PartialEq, Eq, Debug)]
pub struct Fault {
    pub number: u8,
    pub offset: usize,
}

/// Judges a page; each class is judged over the whole page before the next.
pub fn judge(bytes: &[u8]) -> Result<(), Fault> {
    if bytes.is_empty() || bytes.len() > PAGE_LIMIT {
        return Err(Fault { number: 1, offset: 0 });
    }
    let mut judge = Judge { bytes, first: [None; 8], anchors: Vec::new(), page_modifiers: 0 };
    judge.walk_page();
    judge.verdict()?;
    judge.page();
    judge.verdict()
}

struct Judge<'a> {
    bytes: &'a [u8],
    /// The lowest offset of each class so far.
    first: [Option<usize>; 8],
    anchors: Vec<&'a [u8]>,
    page_modifiers: usize,
}

/// A place in a container's order of TLVs.
struct Place {
    tags: &'static [u8],
    mandatory: bool,
    repeated: bool,
}

const fn one(tags: &'static [u8]) -> Place {
    Place { tags, mandatory: true, repeated: false }
}

const fn optional(tags: &'static [u8]) -> Place {
    Place { tags, mandatory: false, repeated: false }
}

const fn some(tags: &'static [u8]) -> Place {
    Place { tags, mandatory: true, repeated: true }
}

const fn any(tags: &'static [u8]) -> Place {
    Place { tags, mandatory: false, repeated: true }
}

const UNIT_TAGS: &[u8] = &[0x0A, 0x8A];
const MODIFIER_TAGS: &[u8] = &[0x08, 0x88];
const ACTION_TAGS: &[u8] = &[0x09, 0x89];
const INLINE_TAGS: &[u8] = &[0x0E, 0x8E];
const SOURCE_TAGS: &[u8] = &[0x0D, 0x0E, 0x8E];
const BYTE_CODE_TAGS: &[u8] = &[
    0x40, 0x41, 0x42, 0x43, 0xC3, 0x44, 0x45, 0xC5, 0x46, 0xC6, 0x47, 0xC7, 0x48, 0x49, 0x4A, 0xCA,
    0x4B, 0xCB,
];
const PERFORMED_TAGS: &[u8] = &[0x0C, 0x12, 0x40, 0x46, 0xC6, 0x47, 0xC7, 0x4A, 0xCA, 0x4B, 0xCB];

/// Clause 7.1.
const PAGE: &[Place] = &[
    one(&[0x02]),
    optional(&[0x03]),
    optional(&[0x04]),
    optional(&[0x05]),
    optional(&[0x06]),
    optional(&[0x07]),
    any(MODIFIER_TAGS),
    some(UNIT_TAGS),
];
/// Clause 7.2.
const UNIT: &[Place] = &[optional(&[0x0B]), any(MODIFIER_TAGS), any(BYTE_CODE_TAGS)];
/// Clause 7.1.8.
const MODIFIER: &[Place] = &[optional(INLINE_TAGS), some(ACTION_TAGS)];
/// Clause 7.1.8.4: a system action is its ID alone.
const SERVICE_ACTION: &[Place] = &[one(PERFORMED_TAGS), optional(INLINE_TAGS)];
const SYSTEM_ACTION: &[Place] = &[optional(INLINE_TAGS)];
/// Clauses 8.4 to 8.6 and 8.9.
const GO_BACK: &[Place] = &[];
const BRANCH: &[Place] = &[some(&[0x11]), optional(&[0x12])];
const CASE: &[Place] = &[one(SOURCE_TAGS), one(&[0x12])];
const EXIT: &[Place] = &[optional(&[0x0D])];
const GET_LENGTH: &[Place] = &[one(&[0x0D])];

impl<'a> Judge<'a> {
    fn note(&mut self, number: u8, offset: usize) {
        let first = &mut self.first[usize::from(number)];
        *first = Some(first.map_or(offset, |earlier| earlier.min(offset)));
    }

    fn verdict(&self) -> Result<(), Fault> {
        let fault = (2..)
            .zip(&self.first[2..])
            .find_map(|(number, first)| first.map(|offset| Fault { number, offset }));
        fault.map_or(Ok(()), Err)
    }

    /// Numbers 2 and 3: the walk down to the eighth level.
    fn walk_page(&mut self) {
        if let Some(end) = self.walk(0, self.bytes.len(), 1, false) {
            if end < self.bytes.len() {
                self.note(2, end);
            }
        }
    }

    /// Walks the TLV at `at`; its end, unless it cannot be read.
    fn walk(&mut self, at: usize, end: usize, level: usize, in_command: bool) -> Option<usize> {
        if level > LEVEL_LIMIT {
            self.note(3, at);
            return None;
        }
        let Some(tlv) = Tlv::read(self.bytes, at, end) else {
            self.note(2, at);
            return None;
        };
        let content = match in_command {
            true => tlv.simple_content(),
            false => tlv.content(self.bytes),
        };
        let Some((content, body)) = content else {
            self.note(2, at);
            return Some(tlv.end);
        };
        let bytes = &self.bytes[body..tlv.end];
        match content {
            Content::Tlvs => self.walk_tlvs(body, tlv.end, level, 0, false),
            Content::NumberedTlvs => self.walk_tlvs(body, tlv.end, level, 1, false),
            Content::SimpleTlvs => self.walk_tlvs(body, tlv.end, level, 0, true),
            Content::Strings if strings(bytes).is_none() => self.note(2, at),
            Content::Pairs if !are_pairs(bytes) => self.note(2, at),
            Content::Strings | Content::Pairs | Content::Data => {}
        }
        Some(tlv.end)
    }

    /// Walks the TLVs of a container with `gap` bytes between them.
    fn walk_tlvs(&mut self, mut at: usize, end: usize, level: usize, gap: usize, in_command: bool) {
        while at < end {
            match self.walk(at, end, level + 1, in_command) {
                Some(next) => at = next + gap,
                None => return,
            }
        }
    }

    /// Numbers 4 to 7, on a page that can be walked.
    fn page(&mut self) {
        let page = Tlv::read(self.bytes, 0, self.bytes.len()).expect("walked");
        if !matches!(page.tag, 0x01 | 0x81) {
            return self.note(4, 0);
        }
        self.page_modifiers =
            page.inner(self.bytes).filter(|part| MODIFIER_TAGS.contains(&part.tag)).count();
        self.limit(page, UNIT_TAGS, UNIT_LIMIT);
        self.limit(page, MODIFIER_TAGS, MODIFIER_LIMIT);
        self.row(page, PAGE, Self::part);
    }

    /// Number 6 at the first TLV with one of the tags that is too many.
    fn limit(&mut self, container: Tlv, tags: &[u8], limit: usize) {
        let beyond = container.inner(self.bytes).filter(|part| tags.contains(&part.tag)).nth(limit);
        if let Some(part) = beyond {
            self.note(6, part.at);
        }
    }

    /// Judges a container by its row, and each part that stands where it may.
    fn row(&mut self, container: Tlv, row: &[Place], part_judge: fn(&mut Self, Tlv)) {
        let parts = container.inner(self.bytes);
        for place in row.iter().filter(|place| place.mandatory) {
            if !parts.clone().any(|part| place.tags.contains(&part.tag)) {
                self.note(4, container.at);
            }
        }
        let mut open = row;
        for part in parts {
            match open.iter().position(|place| place.tags.contains(&part.tag)) {
                Some(found) => {
                    let taken = usize::from(!open[found].repeated);
                    open = &open[found + taken..];
                    part_judge(self, part);
                }
                None => self.note(4, part.at),
            }
        }
    }

    /// Judges a part of any row but those of modifiers and actions.
    fn part(&mut self, tlv: Tlv) {
        match tlv.tag {
            0x02 => self.size(tlv, 1, NAME_LIMIT),
            // The ignored byte is not counted.
            0x03 => self.size(tlv, 1, CODE_LIMIT + 1),
            0x04 => self.size(tlv, 0, CODE_LIMIT),
            0x06 => self.size(tlv, 1, CODE_LIMIT),
            0x07 => self.string_pool(tlv),
            0x08 | 0x88 => self.modifier(tlv),
            0x0A | 0x8A => {
                // A unit's modifiers stand after the page's.
                let left = MODIFIER_LIMIT.saturating_sub(self.page_modifiers);
                self.limit(tlv, MODIFIER_TAGS, left);
                self.row(tlv, UNIT, Self::part);
            }
            0x0B => self.anchor(tlv),
            0x11 => self.row(tlv, CASE, Self::part),
            0x12 => self.page_reference(tlv),
            0x40 => self.set_variable(tlv),
            0x43 | 0xC3 => self.row(tlv, GO_BACK, Self::part),
            0x44 => self.row(tlv, BRANCH, Self::part),
            0x45 | 0xC5 => self.row(tlv, EXIT, Self::part),
            0x48 => self.row(tlv, GET_LENGTH, Self::part),
            0x41 | 0x42 | 0x47 | 0xC7 | 0x49 | 0x4A | 0xCA | 0x4B | 0xCB => self.note(7, tlv.at),
            // Lists, inline values and commands are judged by the walk alone.
            _ => {}
        }
    }

    fn size(&mut self, tlv: Tlv, least: usize, most: usize) {
        if !(least..=most).contains(&(tlv.end - tlv.value)) {
            self.note(6, tlv.at);
        }
    }

    fn string_pool(&mut self, tlv: Tlv) {
        let strings = strings(tlv.bytes(self.bytes)).expect("walked");
        if strings.len() > STRING_LIMIT || strings.iter().any(|&length| length > VALUE_LIMIT) {
            self.note(6, tlv.at);
        }
    }

    fn anchor(&mut self, tlv: Tlv) {
        let anchor = tlv.bytes(self.bytes);
        if anchor.contains(&SEPARATOR) || self.anchors.contains(&anchor) {
            self.note(5, tlv.at);
        }
        self.anchors.push(anchor);
        self.size(tlv, 1, NAME_LIMIT);
    }

    fn anchor_reference(&mut self, tlv: Tlv) {
        match split_reference(tlv.bytes(self.bytes)) {
            None | Some(([], [])) => self.note(4, tlv.at),
            Some((page, anchor)) if page.len() > NAME_LIMIT || anchor.len() > NAME_LIMIT => {
                self.note(6, tlv.at)
            }
            Some(_) => {}
        }
    }

    /// The base has references of just one Anchor Reference (7.9).
    fn page_reference(&mut self, tlv: Tlv) {
        match tlv.inner(self.bytes).next() {
            None => self.note(4, tlv.at),
            Some(first) if first.tag == 0x0C && first.end == tlv.end => {
                self.anchor_reference(first)
            }
            Some(first) if matches!(first.tag, 0x0C | 0x0D | 0x13 | 0x93) => self.note(7, tlv.at),
            Some(first) => self.note(4, first.at),
        }
    }

    /// The base has modifiers that replace by one action and have no text.
    fn modifier(&mut self, tlv: Tlv) {
        let (attribute, _) = tlv.attributes(self.bytes).expect("walked");
        let parts = tlv.inner(self.bytes);
        let actions = parts.filter(|part| ACTION_TAGS.contains(&part.tag)).count();
        if attribute & 0b11 != 0 || actions > 1 {
            return self.note(7, tlv.at);
        }
        self.row(tlv, MODIFIER, |judge, part| match part.tag {
            0x09 | 0x89 => judge.action(part),
            _ => judge.note(7, part.at),
        });
    }

    /// A byte code as an action is beyond the base and not looked into.
    fn action(&mut self, tlv: Tlv) {
        let (_, identifier) = tlv.attributes(self.bytes).expect("walked");
        let row = if self.bytes[identifier] < 0x20 { SYSTEM_ACTION } else { SERVICE_ACTION };
        self.row(tlv, row, |judge, part| match part.tag {
            0x0C => judge.anchor_reference(part),
            0x12 => judge.page_reference(part),
            0x0E | 0x8E => {}
            _ => judge.note(7, part.at),
        });
    }

    fn set_variable(&mut self, tlv: Tlv) {
        let mut pairs = NumberedTlvs::new(self.bytes, tlv);
        let mut has_source = false;
        for (_, source) in pairs.by_ref() {
            match SOURCE_TAGS.contains(&source.tag) {
                true => has_source = true,
                false => self.note(4, source.at),
            }
        }
        // No value at all, or a number at the end with nothing to set it to.
        if !has_source || !pairs.is_done() {
            self.note(4, tlv.at);
        }
    }
}

/// The lengths of a string pool's elements, if they fill it (7.1.7).
fn strings(mut rest: &[u8]) -> Option<Vec<usize>> {
    let mut lengths = Vec::new();
    while !rest.is_empty() {
        let (element, behind) = split_length_value(rest)?;
        lengths.push(element.len());
        rest = behind;
    }
    Some(lengths)
}

/// Whether substitution pairs fill the bytes (6.3).
fn are_pairs(bytes: &[u8]) -> bool {
    let mut pieces = Pieces::of_pairs(bytes);
    pieces.by_ref().for_each(drop);
    pieces.is_done()
}
