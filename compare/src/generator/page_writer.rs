//! Pages with sense in them: what they read is mostly defined, their branches
//! mostly lead somewhere, so that they run deep.

use super::node::{LengthForm, Node};
use super::random::Random;
use super::vocabulary::Vocabulary;
use crate::machine::Machine;
use crate::page::{split_reference, SEPARATOR};

/// A variable that grows by a letter at a time in pages that wander.
const COUNTER: u8 = 0x80;

/// What a page does most.
#[derive(Clone, Copy, PartialEq, Eq)]
enum Theme {
    Plain,
    Wander,
    Commands,
    Limits,
}

pub struct PageWriter<'a> {
    pub(super) random: &'a mut Random,
    pub(super) vocabulary: &'a Vocabulary,
    pub(super) machine: &'a Machine,
    theme: Theme,
    name: Vec<u8>,
    pub(super) service: Option<Vec<u8>>,
    /// The anchors of the page's own units.
    anchors: Vec<Vec<u8>>,
    /// Numbers that are probably defined when a byte code reads them.
    pub(super) readable: Vec<u8>,
}

/// Writes a page that the loader accepts, for a card at rest.
pub fn write_page(random: &mut Random, vocabulary: &Vocabulary, machine: &Machine) -> Node {
    let theme = match random.weighted(&[42, 20, 24, 14]) {
        0 => Theme::Plain,
        1 => Theme::Wander,
        2 => Theme::Commands,
        _ => Theme::Limits,
    };
    PageWriter::new(random, vocabulary, machine, theme).page()
}

/// Writes a page whose units each send a command and then branch: general
/// result '00' leads on, '11' leads back.
pub fn write_walking_page(random: &mut Random, vocabulary: &Vocabulary, machine: &Machine) -> Node {
    PageWriter::new(random, vocabulary, machine, Theme::Wander).walking_page()
}

impl<'a> PageWriter<'a> {
    fn new(
        random: &'a mut Random,
        vocabulary: &'a Vocabulary,
        machine: &'a Machine,
        theme: Theme,
    ) -> Self {
        let name = match split_reference(machine.wanted()) {
            Some((page, _)) if random.percent(75) => page.to_vec(),
            _ => random.pick(&vocabulary.pages).clone(),
        };
        let service = random.percent(70).then(|| random.pick(&vocabulary.services).clone());
        let (anchors, readable) = (Vec::new(), Vec::new());
        PageWriter { random, vocabulary, machine, theme, name, service, anchors, readable }
    }

    fn walking_page(&mut self) -> Node {
        let count = self.random.between(3, 8);
        let mut parts = vec![Node::data(0x02, self.name.clone())];
        for anchor in self.unit_anchors(count) {
            let mut unit: Vec<Node> =
                anchor.into_iter().map(|name| Node::data(0x0B, name)).collect();
            unit.push(Node::nodes(0x46, [0x21, 0x00, 0x02], vec![]));
            // The command was done, so '05' is '0000'.
            let case = vec![constant(&[0x00, 0x00]), self.page_reference()];
            unit.push(Node::nodes(0x44, [0x05], vec![Node::nodes(0x11, [], case)]));
            let bits = u8::from(self.random.percent(10));
            parts.push(self.with_attributes(0x0A, bits, Vec::new(), unit));
        }
        Node::nodes(0x01, [], parts)
    }

    fn page(&mut self) -> Node {
        let mut parts = vec![Node::data(0x02, self.name.clone())];
        if self.random.percent(50) {
            let mut unlock = vec![self.random.byte()];
            unlock.extend(self.random.pick(&self.vocabulary.passwords));
            parts.push(Node::data(0x03, unlock));
        }
        if self.random.percent(40) {
            parts.push(Node::data(0x04, self.random.pick(&self.vocabulary.passwords).clone()));
        }
        if self.random.percent(35) {
            let count = match self.random.weighted(&[95, 5]) {
                0 => self.random.below(7),
                _ => self.random.between(64, 90),
            };
            let list: Vec<u8> = (0..count).map(|_| self.vocabulary.number(self.random)).collect();
            parts.push(Node::data(0x05, list));
        }
        if let Some(service) = &self.service {
            parts.push(Node::data(0x06, service.clone()));
        }
        if self.random.percent(45) {
            parts.push(self.string_pool());
        }
        self.note_defined(&parts);
        let unit_count = match self.random.weighted(&[90, 8, 2]) {
            0 => self.random.between(1, 6),
            1 => self.random.between(7, 20),
            _ => self.random.between(60, 64),
        };
        let unit_anchors = self.unit_anchors(unit_count);
        let page_modifiers = match self.random.weighted(&[45, 45, 8, 2]) {
            0 => 0,
            1 => self.random.between(1, 3),
            2 => self.random.between(4, 16),
            _ => self.random.between(30, 32),
        };
        parts.extend((0..page_modifiers).map(|_| self.modifier()));
        for (index, anchor) in unit_anchors.into_iter().enumerate() {
            parts.push(self.unit(index, anchor, 32 - page_modifiers, unit_count > 20));
        }
        // KeepAll and the page's value type.
        let bits = self.random.below(2) | self.random.weighted(&[4, 2, 2, 2, 2, 1, 1, 1]) << 1;
        self.with_attributes(0x01, bits as u8, Vec::new(), parts)
    }

    /// What a page with these parameters can read from its first step on.
    fn note_defined(&mut self, parameters: &[Node]) {
        let unit = Node::nodes(0x0A, [], vec![]);
        let probe = Node::nodes(0x01, [], [parameters, &[unit]].concat());
        let mut ahead = self.machine.clone();
        if ahead.load(&probe.to_bytes()).is_ok() {
            let is_defined = |number: &u8| ahead.read(*number, self.service.as_deref()).is_some();
            self.readable = (0..=0xFF).filter(is_defined).collect();
        }
    }

    fn string_pool(&mut self) -> Node {
        let count = match self.random.weighted(&[90, 10]) {
            0 => self.random.between(1, 5),
            _ => self.random.between(60, 64),
        };
        let mut pool = Vec::new();
        for _ in 0..count {
            let length = if count > 5 { self.random.below(3) } else { self.text_length() };
            let text = self.text(length.min(255));
            pool.extend(length_value(&text));
        }
        Node::data(0x07, pool)
    }

    /// Anchors of the units, each one different; some units have none.
    fn unit_anchors(&mut self, count: usize) -> Vec<Option<Vec<u8>>> {
        let mut anchors = Vec::new();
        for index in 0..count {
            let anchor = match self.vocabulary.anchors.get(index) {
                Some(anchor) => anchor.clone(),
                None => format!("u{index}").into_bytes(),
            };
            if self.random.percent(88) {
                self.anchors.push(anchor.clone());
                anchors.push(Some(anchor));
            } else {
                anchors.push(None);
            }
        }
        anchors
    }

    fn unit(&mut self, index: usize, anchor: Option<Vec<u8>>, room: usize, small: bool) -> Node {
        let mut parts: Vec<Node> = anchor.into_iter().map(|name| Node::data(0x0B, name)).collect();
        if self.random.percent(if small { 5 } else { 35 }) {
            let most = if self.random.percent(5) { room } else { room.min(3) };
            let count = self.random.between(0, most);
            parts.extend((0..count).map(|_| self.modifier()));
        }
        // Without an opening, '05' still holds what the last page left.
        if index == 0 && (self.theme == Theme::Limits || self.random.percent(85)) {
            let opening = self.opening();
            parts.extend(opening);
        }
        let count = if small { self.random.below(3) } else { self.random.between(0, 5) };
        for _ in 0..count {
            let byte_code = self.byte_code();
            parts.push(byte_code);
        }
        if self.theme == Theme::Wander && self.random.percent(60) {
            let longer = Node::data(0x0E, [0xC0, COUNTER, 0x01, b'a']);
            parts.push(Node::numbered(0x40, vec![(COUNTER, longer)]));
        }
        // Most units lead on to another one.
        if self.random.percent(60) {
            let onward = self.branch();
            parts.push(onward);
        }
        // b1: not added to the history.
        let bits = u8::from(self.random.percent(15));
        self.with_attributes(0x0A, bits, Vec::new(), parts)
    }

    /// The first unit sets the variables that the others read.
    fn opening(&mut self) -> Vec<Node> {
        let mut codes = Vec::new();
        if self.theme == Theme::Wander {
            codes.push(Node::numbered(0x40, vec![(COUNTER, constant(b""))]));
            self.readable.push(COUNTER);
        }
        if self.theme == Theme::Limits {
            codes.extend(self.limit_codes());
        }
        let mut numbers = self.vocabulary.temporary.clone();
        if self.service.is_some() {
            numbers.extend(&self.vocabulary.permanent);
        }
        // Where an area is nearly full, few more writes leave it at that.
        let share = if self.theme == Theme::Limits { 6 } else { 40 };
        let mut pairs = Vec::new();
        for number in numbers {
            if self.random.percent(share) && !(number == COUNTER && self.theme == Theme::Wander) {
                let source = self.source();
                pairs.push((number, source));
            }
        }
        self.readable.extend(pairs.iter().map(|(number, _)| *number));
        while !pairs.is_empty() {
            let taken = self.random.between(1, pairs.len());
            codes.push(Node::numbered(0x40, pairs.drain(..taken).collect()));
        }
        codes
    }

    fn byte_code(&mut self) -> Node {
        let weights = match self.theme {
            Theme::Plain => [26, 10, 18, 34, 4, 5, 3],
            Theme::Wander => [4, 4, 45, 12, 2, 14, 1],
            Theme::Commands => [12, 6, 8, 66, 3, 3, 2],
            Theme::Limits => [22, 10, 8, 60, 1, 2, 2],
        };
        match self.random.weighted(&weights) {
            0 => self.set_variable(),
            1 => self.get_length(),
            2 => self.branch(),
            3 => self.execute(),
            4 => self.exit(),
            5 => self.go_back(),
            _ => self.clashing_byte_code(),
        }
    }

    fn set_variable(&mut self) -> Node {
        let count = match self.random.weighted(&[70, 20, 8, 2]) {
            0 => 1,
            1 => 2,
            2 => self.random.between(3, 8),
            _ => self.random.between(9, 20),
        };
        let pairs = (0..count).map(|_| (self.target(), self.source())).collect();
        Node::numbered(0x40, pairs)
    }

    fn get_length(&mut self) -> Node {
        let count = self.random.below(6);
        let list: Vec<u8> = (0..count).map(|_| self.number()).collect();
        Node::nodes(0x48, [self.target()], vec![Node::data(0x0D, list)])
    }

    fn branch(&mut self) -> Node {
        let number = match self.theme {
            Theme::Wander if self.random.percent(75) => COUNTER,
            _ => self.number(),
        };
        let count = self.random.between(1, 3);
        let mut parts: Vec<Node> = (0..count).map(|_| self.case(number)).collect();
        if self.random.percent(5) {
            // What stands behind a match is not read.
            let equal = vec![Node::data(0x0D, [number]), self.page_reference()];
            let behind = vec![Node::data(0x0D, [self.random.byte()]), self.page_reference()];
            parts.extend([equal, behind].map(|case| Node::nodes(0x11, [], case)));
        }
        if self.random.percent(70) {
            parts.push(self.page_reference());
        }
        Node::nodes(0x44, [number], parts)
    }

    fn case(&mut self, number: u8) -> Node {
        let source = match self.random.weighted(&[350, 100, 60, 483, 7]) {
            0 => self.source(),
            // These are always equal.
            1 => Node::data(0x0D, [number, self.random.byte()]),
            2 => Node::data(0x0E, [0xC0, number]),
            // A counter comes to be equal.
            3 if number == COUNTER => constant(&vec![b'a'; self.random.below(24)]),
            3 => {
                let length = self.random.below(3);
                constant(&self.text(length))
            }
            _ => Node::data(0x0D, []),
        };
        Node::nodes(0x11, [], vec![source, self.page_reference()])
    }

    pub(super) fn page_reference(&mut self) -> Node {
        Node::nodes(0x12, [], vec![self.anchor_reference()])
    }

    fn anchor_reference(&mut self) -> Node {
        let (own, other, gone) = match self.theme {
            Theme::Wander => (85, 8, 2),
            Theme::Limits => (66, 10, 16),
            _ => (66, 18, 2),
        };
        let mut reference = Vec::new();
        match self.random.weighted(&[own, 8, other, gone]) {
            0 if !self.anchors.is_empty() => {
                if self.random.percent(40) {
                    reference.extend(&self.name);
                }
                reference.push(SEPARATOR);
                reference.extend(self.random.pick(&self.anchors));
            }
            0 | 1 => {
                reference.extend(&self.name);
                reference.push(SEPARATOR);
            }
            2 => {
                reference.extend(self.random.pick(&self.vocabulary.pages));
                reference.push(SEPARATOR);
                if self.random.percent(75) {
                    reference.extend(self.random.pick(&self.vocabulary.anchors));
                }
            }
            _ => return gone_reference(),
        }
        Node::data(0x0C, reference)
    }

    fn exit(&mut self) -> Node {
        let mut parts = Vec::new();
        if self.random.percent(30) {
            parts.push(Node::data(0x0D, [self.vocabulary.number(self.random)]));
        }
        let bits = u8::from(self.random.percent(30));
        self.with_attributes(0x45, bits, Vec::new(), parts)
    }

    fn go_back(&mut self) -> Node {
        self.with_attributes(0x43, 0, Vec::new(), Vec::new())
    }

    fn execute(&mut self) -> Node {
        let bits = self.random.below(8) as u8;
        let mut fixed = Vec::new();
        let numbers = (bits & 0b101).count_ones();
        for _ in 0..numbers {
            fixed.push(self.target());
        }
        fixed.push(*self.random.pick(&self.vocabulary.command_types));
        fixed.push(*self.random.pick(&[0x00, 0x03, 0x80]));
        fixed.push(*self.random.pick(&[0x02, 0x82]));
        let count = self.random.below(4);
        let mut tlvs: Vec<Node> = (0..count).map(|_| self.simple_tlv()).collect();
        if self.random.percent(4) {
            // A command near 255 bytes: nine of them and five of lengths are not text.
            let length = self.random.between(236, 242);
            tlvs = vec![Node::data(0x8D, self.text(length))];
        }
        self.with_attributes(0x46, bits, fixed, tlvs)
    }

    fn simple_tlv(&mut self) -> Node {
        if self.random.percent(55) {
            let mut indicator = vec![*self.random.pick(&[0x8D, 0x0D, 0x85, 0x00])];
            indicator.extend(self.pairs());
            return Node::data(0x00, indicator);
        }
        let tag = *self.random.pick(&[0x8D, 0x85, 0x8F, 0x90, 0x11, 0x40, 0xC6]);
        let length = self.random.below(12);
        let text = self.text(length);
        let mut tlv = Node::data(tag, text);
        tlv.form = self.length_form();
        tlv
    }

    fn modifier(&mut self) -> Node {
        let usual: [u8; 9] = [0x00, 0x10, 0x10, 0x11, 0x12, 0x13, 0x14, 0x20, 0x30];
        let range = match self.random.weighted(&[40, 25, 15, 10, 5, 5]) {
            0 => [*self.random.pick(&usual); 2],
            1 => {
                let low = *self.random.pick(&usual);
                [low, low.saturating_add(self.random.below(32) as u8)]
            }
            2 => [0x10, 0x1F],
            3 => [0x00, 0xFF],
            4 => [0xFF, *self.random.pick(&[0x00, 0x01, 0xFF])],
            _ => [self.random.byte(), self.random.byte()],
        };
        let (range, action) = match self.theme == Theme::Limits && self.random.percent(20) {
            // A response whose results find no room has a branch to nowhere too.
            true => ([0x00, 0xFF], Node::nodes(0x09, [0x20], vec![gone_reference()])),
            false => (range, self.action()),
        };
        // The modification type is Replace.
        self.with_attributes(0x08, 0, range.to_vec(), vec![action])
    }

    fn action(&mut self) -> Node {
        let mut parts = Vec::new();
        let identifier = match self.random.weighted(&[18, 5, 14, 10, 8, 45]) {
            5 => {
                let reference = match self.random.percent(50) {
                    true => self.anchor_reference(),
                    false => self.page_reference(),
                };
                parts.push(reference);
                self.random.between(0x20, 0xFF)
            }
            4 => self.random.between(0x04, 0x1F),
            system => system,
        };
        if self.random.percent(25) {
            let description = self.inline();
            parts.push(description);
        }
        self.with_attributes(0x09, 0, vec![identifier as u8], parts)
    }

    /// An Inline Value or a Variable Identifier List.
    fn source(&mut self) -> Node {
        if self.readable.is_empty() || self.random.percent(65) {
            return self.inline();
        }
        let count = self.random.weighted(&[10, 64, 18, 6, 1, 1]);
        let list: Vec<u8> = (0..count).map(|_| self.number()).collect();
        Node::data(0x0D, list)
    }

    fn inline(&mut self) -> Node {
        let pairs = self.pairs();
        if self.random.percent(70) {
            let mut inline = Node::data(0x0E, pairs);
            inline.form = self.length_form();
            return inline;
        }
        let kind = self.random.below(8) as u8;
        let mut data = self.attributes(0x0E, kind);
        data.extend(pairs);
        Node::data(0x8E, data)
    }

    fn pairs(&mut self) -> Vec<u8> {
        let mut pairs = Vec::new();
        for _ in 0..self.random.weighted(&[8, 70, 16, 6]) {
            if !self.readable.is_empty() && self.random.percent(25) {
                pairs.push(0xC0 + self.random.weighted(&[6, 1, 1, 1, 1, 1, 1, 1]) as u8);
                pairs.push(self.number());
            } else {
                let length = self.text_length();
                let text = self.text(length);
                pairs.extend(length_value(&text));
            }
        }
        pairs
    }

    /// A number to read: mostly a defined one.
    pub(super) fn number(&mut self) -> u8 {
        if !self.readable.is_empty() && self.random.below(200) > 0 {
            return *self.random.pick(&self.readable);
        }
        if self.random.percent(30) {
            return 0x05;
        }
        self.vocabulary.number(self.random)
    }

    /// A number to write: mostly one that may be written.
    pub(super) fn target(&mut self) -> u8 {
        let permanent = if self.service.is_some() { 250 } else { 3 };
        match self.random.weighted(&[700, permanent, 3, 2, 40]) {
            0 => *self.random.pick(&self.vocabulary.temporary),
            1 => *self.random.pick(&self.vocabulary.permanent),
            2 => *self.random.pick(&self.vocabulary.environment),
            3 => 0xC0 + self.random.below(64) as u8,
            _ => 0x80 + self.random.below(64) as u8,
        }
    }

    fn text_length(&mut self) -> usize {
        match self.random.weighted(&[80, 600, 270, 30, 15, 5]) {
            0 => 0,
            1 => self.random.between(1, 3),
            2 => self.random.between(4, 20),
            3 => *self.random.pick(&[60, 85, 100, 126, 127, 128]),
            4 => self.random.between(200, 255),
            _ => self.random.between(256, 300),
        }
    }

    /// Few letters, so that short texts are often equal.
    pub(super) fn text(&mut self, length: usize) -> Vec<u8> {
        vec![*self.random.pick(b"abc"); length]
    }

    fn length_form(&mut self) -> LengthForm {
        match self.random.weighted(&[96, 2, 2]) {
            0 => LengthForm::Shortest,
            1 => LengthForm::TwoBytes,
            _ => LengthForm::ThreeBytes,
        }
    }

    /// One attribute byte; now and then with bits, or another byte, that mean
    /// nothing.
    fn attributes(&mut self, tag: u8, bits: u8) -> Vec<u8> {
        let spare = match tag {
            0x01 => 0x70,
            0x08 => 0x7C,
            0x0A | 0x45 => 0x7E,
            0x0E | 0x46 => 0x78,
            _ => 0x7F,
        };
        let noise = if self.random.percent(12) { self.random.byte() & spare } else { 0 };
        match self.random.percent(8) {
            true => vec![bits | noise | 0x80, self.random.byte() & 0x7F],
            false => vec![bits | noise],
        }
    }

    /// A TLV whose tag has a form with attributes, needed or not.
    fn with_attributes(&mut self, tag: u8, bits: u8, fixed: Vec<u8>, parts: Vec<Node>) -> Node {
        let mut node = Node::nodes(tag, fixed, parts);
        if bits != 0 || self.random.percent(15) {
            node.tag |= 0x80;
            node.head = [self.attributes(tag, bits), node.head].concat();
        }
        node.form = self.length_form();
        node
    }
}

/// A reference to an anchor of this page that no unit holds.
fn gone_reference() -> Node {
    Node::data(0x0C, b"#gone".to_vec())
}

/// A length and as many bytes.
pub(super) fn length_value(text: &[u8]) -> Vec<u8> {
    let mut pair = Vec::new();
    crate::tlv::append_length(text.len(), &mut pair);
    pair.extend_from_slice(text);
    pair
}

pub(super) fn constant(text: &[u8]) -> Node {
    Node::data(0x0E, length_value(text))
}
