//! A page as a tree of TLVs, so that damage can leave the lengths right.

use crate::tlv::append_length;

#[derive(Clone)]
pub struct Node {
    pub tag: u8,
    /// Attributes and fixed bytes.
    pub head: Vec<u8>,
    pub body: Body,
    pub form: LengthForm,
}

#[derive(Clone)]
pub enum Body {
    Data(Vec<u8>),
    Nodes(Vec<Node>),
    /// The pairs of a Set Variable.
    Numbered(Vec<(u8, Node)>),
}

/// A longer form of a length than needed is taken too.
#[derive(Clone, Copy)]
pub enum LengthForm {
    Shortest,
    TwoBytes,
    ThreeBytes,
}

impl Node {
    pub fn data(tag: u8, data: impl Into<Vec<u8>>) -> Node {
        Node { tag, head: Vec::new(), body: Body::Data(data.into()), form: LengthForm::Shortest }
    }

    pub fn nodes(tag: u8, head: impl Into<Vec<u8>>, nodes: Vec<Node>) -> Node {
        Node { tag, head: head.into(), body: Body::Nodes(nodes), form: LengthForm::Shortest }
    }

    pub fn numbered(tag: u8, pairs: Vec<(u8, Node)>) -> Node {
        Node { tag, head: Vec::new(), body: Body::Numbered(pairs), form: LengthForm::Shortest }
    }

    pub fn append(&self, out: &mut Vec<u8>) {
        let mut value = self.head.clone();
        match &self.body {
            Body::Data(data) => value.extend_from_slice(data),
            Body::Nodes(nodes) => nodes.iter().for_each(|node| node.append(&mut value)),
            Body::Numbered(pairs) => {
                for (number, node) in pairs {
                    value.push(*number);
                    node.append(&mut value);
                }
            }
        }
        out.push(self.tag);
        match (self.form, value.len()) {
            (LengthForm::TwoBytes, length @ 0..=0xFF) => out.extend([0x81, length as u8]),
            (LengthForm::ThreeBytes, length @ 0..=0xFFFF) => {
                out.extend([0x82, (length >> 8) as u8, length as u8]);
            }
            (_, length) => append_length(length, out),
        }
        out.append(&mut value);
    }

    pub fn to_bytes(&self) -> Vec<u8> {
        let mut bytes = Vec::new();
        self.append(&mut bytes);
        bytes
    }

    /// The inner nodes, where the body is a plain row of them.
    pub fn children(&mut self) -> Option<&mut Vec<Node>> {
        match &mut self.body {
            Body::Nodes(nodes) => Some(nodes),
            _ => None,
        }
    }

    /// Hands out this node and all inside it, outer ones first.
    pub fn visit(&mut self, visitor: &mut dyn FnMut(&mut Node)) {
        visitor(self);
        match &mut self.body {
            Body::Data(_) => {}
            Body::Nodes(nodes) => nodes.iter_mut().for_each(|node| node.visit(visitor)),
            Body::Numbered(pairs) => pairs.iter_mut().for_each(|(_, node)| node.visit(visitor)),
        }
    }

    /// Changes the node at a place in the order of `visit`, among those wanted.
    pub fn change(
        &mut self,
        wanted: impl Fn(&Node) -> bool,
        place: impl FnOnce(usize) -> usize,
        mut change: impl FnMut(&mut Node),
    ) {
        let mut count = 0;
        self.visit(&mut |node| count += usize::from(wanted(node)));
        if count == 0 {
            return;
        }
        let mut left = place(count) + 1;
        self.visit(&mut |node| {
            if left > 0 && wanted(node) {
                left -= 1;
                if left == 0 {
                    change(node);
                }
            }
        });
    }
}
