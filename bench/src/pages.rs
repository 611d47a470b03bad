//! The pages that are timed.

const BYTES_OF_A_UNIT: usize = 64;
/// An environment variable that the host has set to "x".
pub const HOST_VARIABLE: u8 = 0x10;

pub fn tlv(tag: u8, value: &[u8]) -> Vec<u8> {
    let mut bytes = vec![tag];
    match value.len() {
        n @ 0..=127 => bytes.push(n as u8),
        n @ 128..=255 => bytes.extend([0x81, n as u8]),
        n => bytes.extend([0x82, (n / 256) as u8, (n % 256) as u8]),
    }
    bytes.extend(value);
    bytes
}

fn anchor_name(unit: usize) -> [u8; 2] {
    [b'A' + (unit / 26) as u8, b'a' + (unit % 26) as u8]
}

fn reference(unit: usize) -> Vec<u8> {
    tlv(0x12, &tlv(0x0C, &[&b"#"[..], &anchor_name(unit)].concat()))
}

/// Branch On Variable Value with one case, "x".
fn branch(unit: usize) -> Vec<u8> {
    let case = tlv(0x11, &[tlv(0x0E, b"\x01x"), reference(unit)].concat());
    tlv(0x44, &[vec![HOST_VARIABLE], case].concat())
}

fn unit(name: usize, parts: &[u8]) -> Vec<u8> {
    tlv(0x0A, &[tlv(0x0B, &anchor_name(name)), parts.to_vec()].concat())
}

fn page(units: &[Vec<u8>]) -> Vec<u8> {
    tlv(0x01, &[tlv(0x02, b"bench"), units.concat()].concat())
}

/// Units that each branch to the next, and the last to the first.
pub fn ring(units: usize) -> Vec<u8> {
    let ring: Vec<Vec<u8>> =
        (0..units).map(|name| unit(name, &branch((name + 1) % units))).collect();
    page(&ring)
}

/// A unit of Set Variables, ten bytes each into one of eight, and a branch to itself.
pub fn settings(count: usize) -> Vec<u8> {
    let value = tlv(0x0E, b"\x0aabcdefghij");
    let settings: Vec<u8> = (0..count)
        .flat_map(|n| tlv(0x40, &[vec![0x80 + (n % 8) as u8], value.clone()].concat()))
        .collect();
    page(&[unit(0, &[settings, branch(0)].concat())])
}

/// A unit with a command and a branch to itself.
pub fn commands() -> Vec<u8> {
    let command = tlv(0x46, &[&[0x21, 0x80, 0x02][..], &tlv(0x8D, b"\x04Hello")].concat());
    page(&[unit(0, &[command, branch(0)].concat())])
}

/// A unit of just so many bytes: an anchor, a Set Variable, a branch, a Get Length and an Exit; the text of the Set Variable fills it up.
/// A rich one has a modifier and a command with an indicator in place of the branch's default and the Get Length.
fn filled_unit(name: usize, size: usize, rich: bool) -> Vec<u8> {
    for filling in 0..=size {
        let text = tlv(0x0E, &[vec![filling as u8], vec![b'x'; filling]].concat());
        let reference = tlv(0x12, &tlv(0x0C, b"#A"));
        let case = tlv(0x11, &[tlv(0x0D, &[0x81]), reference.clone()].concat());
        let setting = tlv(0x40, &[vec![0x80], text].concat());
        let exit = tlv(0xC5, &[0x01]);
        let parts = if rich {
            let action = tlv(0x09, &[vec![0x20], reference.clone()].concat());
            let modifier = tlv(0x08, &[vec![0x10, 0x1F], action].concat());
            let command =
                tlv(0x46, &[vec![0x21, 0x80, 0x02], tlv(0x00, &[0x8D, 0xC0, 0x80])].concat());
            let branch = tlv(0x44, &[vec![0x80], case].concat());
            [modifier, setting, branch, command, exit].concat()
        } else {
            let branch = tlv(0x44, &[vec![0x80], case, reference].concat());
            let length = tlv(0x48, &[vec![0x81], tlv(0x0D, &[0x80])].concat());
            [setting, branch, length, exit].concat()
        };
        let made = unit(name, &parts);
        if made.len() == size {
            return made;
        }
    }
    panic!("no unit of {size} bytes");
}

/// A page of just so many bytes, with a unit for each 64 of them.
pub fn filled(length: usize, rich: bool) -> Vec<u8> {
    let count = length / BYTES_OF_A_UNIT;
    let mut units: Vec<Vec<u8>> =
        (1..count).map(|name| filled_unit(name, BYTES_OF_A_UNIT - 1, rich)).collect();
    let head = tlv(0x01, &vec![0; length - 4]).len() - (length - 4);
    let last = length - head - tlv(0x02, b"bench").len() - units.concat().len();
    units.push(filled_unit(count, last, rich));
    page(&units)
}
