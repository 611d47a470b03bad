//! Execute USAT Command (8.7): its fields and the command it builds.

use crate::page::Page;
use crate::scope::Scope;
use crate::tlv::{append_length, Pieces, Tlv, Tlvs, INDICATOR};

/// The longest command, 'D0' and its length counted in.
pub const COMMAND_LIMIT: usize = 255;

/// The fields of the byte code in front of its Simple TLVs.
#[derive(Clone, Copy, Debug)]
pub struct Execute {
    pub general_result: Option<u8>,
    pub output: Option<u8>,
    pub optimised: bool,
    pub command_type: u8,
    qualifier: u8,
    destination: u8,
    body: usize,
    end: usize,
}

impl Execute {
    pub fn read(page: &Page, code: Tlv) -> Execute {
        let bytes = page.bytes();
        let (attribute, head) = code.attributes(bytes).expect("an accepted page");
        let (_, body) = code.content(bytes).expect("an accepted page");
        let mut numbers = bytes[head..body - 3].iter().copied();
        Execute {
            general_result: if attribute & 0b001 != 0 { numbers.next() } else { None },
            output: if attribute & 0b100 != 0 { numbers.next() } else { None },
            optimised: attribute & 0b010 != 0,
            command_type: bytes[body - 3],
            qualifier: bytes[body - 2],
            destination: bytes[body - 1],
            body,
            end: code.end,
        }
    }

    /// The variables that the response is stored in, in the order of writing.
    pub fn results(&self) -> impl Iterator<Item = u8> + Clone {
        self.general_result.into_iter().chain(self.output)
    }

    /// The numbers of all variables that the Simple TLV Indicators read.
    pub fn numbers_read<'a>(&self, page: &'a Page) -> impl Iterator<Item = u8> + 'a {
        Tlvs::new(page.bytes(), self.body, self.end)
            .filter(|tlv| tlv.tag == INDICATOR)
            .flat_map(|indicator| indicator_pieces(page, indicator).numbers())
    }

    /// The command to send, all variables being defined; `None` if too long.
    pub fn build(&self, scope: Scope) -> Option<Vec<u8>> {
        let bytes = scope.page.bytes();
        let mut tlvs = vec![0x81, 0x03, 0x01, self.command_type, self.qualifier];
        tlvs.extend([0x82, 0x02, 0x81, self.destination]);
        let mut text = Vec::new();
        for tlv in Tlvs::new(bytes, self.body, self.end) {
            if tlv.tag == INDICATOR {
                text.clear();
                scope.append(indicator_pieces(scope.page, tlv), &mut text);
                tlvs.push(bytes[tlv.value]);
                append_length(text.len(), &mut tlvs);
                tlvs.extend_from_slice(&text);
            } else {
                tlvs.extend_from_slice(&bytes[tlv.at..tlv.end]);
            }
            if tlvs.len() > COMMAND_LIMIT {
                return None;
            }
        }
        let mut command = vec![0xD0];
        append_length(tlvs.len(), &mut command);
        command.append(&mut tlvs);
        (command.len() <= COMMAND_LIMIT).then_some(command)
    }
}

/// The running text behind an indicator's result tag (8.7.3).
fn indicator_pieces(page: &Page, indicator: Tlv) -> Pieces<'_> {
    Pieces::of_pairs(&page.bytes()[indicator.value + 1..indicator.end])
}
