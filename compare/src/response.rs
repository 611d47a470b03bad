//! A terminal response and what is stored of it (8.7.5).

use crate::command::Execute;
use crate::tlv::Tlv;
use crate::value::{Value, PACKED, UCS2, UNKNOWN, UNPACKED};

const RESPONSE_LIMIT: usize = 255;

#[derive(Clone, Copy, Debug)]
pub struct Response<'a> {
    bytes: &'a [u8],
    pub general_result: u8,
    /// The TLV behind the Result TLV.
    output: Option<Tlv>,
}

impl<'a> Response<'a> {
    /// `None` where the response is malformed or of wrong length. The general
    /// result is in the first Result TLV that is not empty.
    pub fn read(bytes: &'a [u8]) -> Option<Response<'a>> {
        if bytes.is_empty() || bytes.len() > RESPONSE_LIMIT {
            return None;
        }
        let mut response = None;
        let mut at = 0;
        while at < bytes.len() {
            let tlv = Tlv::read(bytes, at, bytes.len())?;
            at = tlv.end;
            if response.is_none() && matches!(tlv.tag, 0x03 | 0x83) && tlv.value < tlv.end {
                let general_result = bytes[tlv.value];
                let output = Tlv::read(bytes, at, bytes.len());
                response = Some(Response { bytes, general_result, output });
            }
        }
        response
    }

    /// The results in the order of writing, with the variables they go to.
    pub fn results(&self, execute: Execute) -> impl Iterator<Item = (u8, Value)> + '_ {
        let general_result = execute
            .general_result
            .map(|number| (number, Value { kind: UNKNOWN, bytes: vec![self.general_result] }));
        let output = execute.output.map(|number| {
            let value = match execute.optimised {
                true => self.optimised_output(),
                false => Value { kind: UNKNOWN, bytes: self.bytes.to_vec() },
            };
            (number, value)
        });
        general_result.into_iter().chain(output)
    }

    /// The first TLV behind the Result TLV; of a text, without its DCS (8.7.5.2).
    fn optimised_output(&self) -> Value {
        let Some(tlv) = self.output else {
            return Value { kind: UNKNOWN, bytes: Vec::new() };
        };
        match (tlv.tag, tlv.bytes(self.bytes)) {
            (0x0D | 0x8D, [scheme, text @ ..]) => {
                let kind = match scheme {
                    0x00 => PACKED,
                    0x04 => UNPACKED,
                    0x08 => UCS2,
                    _ => UNKNOWN,
                };
                Value { kind, bytes: text.to_vec() }
            }
            (_, value) => Value { kind: UNKNOWN, bytes: value.to_vec() },
        }
    }
}
