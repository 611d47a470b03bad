//! Byte codes with several faults at once: the order 16, 19, 17, 22, 18 decides.

use super::node::Node;
use super::page_writer::{constant, length_value, PageWriter};

/// The faults that a byte code is given, each one or not.
struct Faults {
    syntax: bool,
    security: bool,
    undefined: bool,
    memory: bool,
}

impl PageWriter<'_> {
    pub(super) fn clashing_byte_code(&mut self) -> Node {
        let faults = Faults {
            syntax: self.random.percent(30),
            security: self.random.percent(45),
            undefined: self.random.percent(60),
            memory: self.random.percent(60),
        };
        match self.random.below(4) {
            0 => self.clashing_set_variable(faults),
            1 => self.clashing_get_length(faults),
            2 => self.clashing_branch(faults),
            _ => self.clashing_execute(faults),
        }
    }

    fn clashing_set_variable(&mut self, faults: Faults) -> Node {
        let mut pairs = vec![(self.target(), constant(b"a"))];
        if faults.memory {
            pairs.push((self.target(), constant(&[b'm'; 256])));
        }
        if faults.undefined {
            pairs.push((self.target(), Node::data(0x0D, [self.undefined_number()])));
        }
        if faults.security {
            let number = self.closed_number();
            pairs.push((number, constant(b"s")));
        }
        if faults.syntax {
            pairs.push((0xC0 + self.random.below(64) as u8, constant(b"")));
        }
        Node::numbered(0x40, pairs)
    }

    fn clashing_get_length(&mut self, faults: Faults) -> Node {
        let target = match (faults.syntax, faults.security) {
            (true, _) => 0xFF,
            (false, true) => self.closed_number(),
            (false, false) => self.target(),
        };
        let mut list = vec![self.number()];
        if faults.undefined {
            list.push(self.undefined_number());
        }
        if faults.security {
            list.push(*self.random.pick(&self.vocabulary.permanent));
        }
        Node::nodes(0x48, [target], vec![Node::data(0x0D, list)])
    }

    fn clashing_branch(&mut self, faults: Faults) -> Node {
        let mut lists = vec![vec![self.number()]];
        if faults.undefined {
            lists.insert(self.random.below(2), vec![self.undefined_number()]);
        }
        if faults.security {
            lists.push(vec![*self.random.pick(&self.vocabulary.permanent)]);
        }
        if faults.syntax {
            lists.push(vec![]);
        }
        let mut cases = Vec::new();
        for list in lists {
            let case = vec![Node::data(0x0D, list), self.page_reference()];
            cases.push(Node::nodes(0x11, [], case));
        }
        Node::nodes(0x44, [self.number()], cases)
    }

    fn clashing_execute(&mut self, faults: Faults) -> Node {
        let general_result = if faults.security { self.closed_number() } else { self.target() };
        let output = if faults.syntax { 0xC0 } else { self.target() };
        let mut tlvs = Vec::new();
        if faults.memory {
            tlvs.push(Node::data(0x8D, [b'm'; 250]));
        }
        let read = if faults.undefined { self.undefined_number() } else { self.number() };
        let mut indicator = vec![0x8D, 0xC0, read];
        indicator.extend(length_value(b"text"));
        tlvs.push(Node::data(0x00, indicator));
        // The type is seldom among those that '02' allows.
        let command_type = self.random.byte();
        let head = [0b101, general_result, output, command_type, 0x00, 0x02];
        Node::nodes(0xC6, head, tlvs)
    }

    /// A number that the page may not write.
    fn closed_number(&mut self) -> u8 {
        match self.service.is_none() && self.random.percent(50) {
            true => *self.random.pick(&self.vocabulary.permanent),
            false => *self.random.pick(&self.vocabulary.environment),
        }
    }

    /// A temporary number that is probably not set, or a string that is not there.
    fn undefined_number(&mut self) -> u8 {
        let number = 0x80 + self.random.below(128) as u8;
        match self.readable.contains(&number) {
            true => 0xFF,
            false => number,
        }
    }
}
