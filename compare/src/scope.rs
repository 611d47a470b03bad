//! What a byte code of the running page may read, and the values made of it.

use crate::page::Page;
use crate::store::Store;
use crate::tlv::{Piece, Pieces, Tlv};
use crate::value::{area, kind_of_bits, Area, Value, ValueView, UNKNOWN, VALUE_LIMIT};

#[derive(Clone, Copy)]
pub struct Scope<'a> {
    pub page: &'a Page,
    pub store: &'a Store,
}

/// A page with no Service ID may not touch a permanent variable (6.1.2.2).
pub fn is_closed(page: &Page, number: u8) -> bool {
    area(number) == Area::Permanent && page.service().is_none()
}

/// A page may write permanent variables of its service and temporary ones.
pub fn is_closed_to_write(page: &Page, number: u8) -> bool {
    area(number) == Area::Environment || is_closed(page, number)
}

/// The pieces of an Inline Value or of a Variable Identifier List.
pub fn pieces(page: &Page, source: Tlv) -> Pieces<'_> {
    let (_, body) = source.content(page.bytes()).expect("an accepted page");
    let content = &page.bytes()[body..source.end];
    match source.tag {
        0x0D => Pieces::of_list(content),
        _ => Pieces::of_pairs(content),
    }
}

impl<'a> Scope<'a> {
    pub fn value(&self, number: u8) -> Option<ValueView<'a>> {
        match area(number) {
            Area::PageString => self.page.string(number),
            _ => self.store.value(number, self.page.service()),
        }
    }

    /// Appends the pieces by method 1 of 6.3, until the text is longer than any
    /// value or command may be: more is never looked at.
    pub fn append(&self, pieces: Pieces, text: &mut Vec<u8>) {
        for piece in pieces {
            match piece {
                Piece::Constant(constant) => text.extend_from_slice(constant),
                Piece::Variable(number) => {
                    if let Some(value) = self.value(number) {
                        text.extend_from_slice(value.bytes);
                    }
                }
            }
            if text.len() > VALUE_LIMIT {
                break;
            }
        }
    }

    /// The value of an Inline Value or of a list; all it reads is defined.
    pub fn gather(&self, source: Tlv) -> Value {
        let mut bytes = Vec::new();
        self.append(pieces(self.page, source), &mut bytes);
        let kind = match source.tag {
            0x0D => self.shared_kind(source),
            _ => self.inline_kind(source),
        };
        Value { kind, bytes }
    }

    /// The type that all variables of a list share, else unknown (8.1).
    fn shared_kind(&self, list: Tlv) -> u8 {
        let mut kinds = list
            .bytes(self.page.bytes())
            .iter()
            .filter_map(|&number| self.value(number))
            .map(|value| value.kind);
        match kinds.next() {
            Some(first) if kinds.all(|kind| kind == first) => first,
            _ => UNKNOWN,
        }
    }

    /// An Inline Value's own type, or the page's where that is unknown (7.5).
    fn inline_kind(&self, inline: Tlv) -> u8 {
        let (attribute, _) = inline.attributes(self.page.bytes()).expect("an accepted page");
        match kind_of_bits(attribute) {
            UNKNOWN => self.page.kind(),
            kind => kind,
        }
    }
}
