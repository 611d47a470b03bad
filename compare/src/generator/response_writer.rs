//! Terminal responses: good ones of every general result, and bad ones.

use super::node::Node;
use super::random::Random;
use super::vocabulary::Vocabulary;

pub fn good_response(random: &mut Random, vocabulary: &Vocabulary) -> Vec<u8> {
    let mut tlvs = Vec::new();
    if random.percent(85) {
        let kind = *random.pick(&vocabulary.command_types);
        tlvs.push(Node::data(0x81, [0x01, kind, 0x00]));
        tlvs.push(Node::data(0x82, [0x82, 0x81]));
    }
    if random.percent(5) {
        tlvs.push(Node::data(0x83, []));
    }
    let mut result = vec![general_result(random)];
    if random.percent(20) {
        let count = random.between(1, 3);
        result.extend(random.bytes(count));
    }
    tlvs.push(Node::data(*random.pick(&[0x03, 0x83]), result));
    if random.percent(60) {
        tlvs.push(output(random));
    }
    if random.percent(15) {
        tlvs.push(Node::data(random.byte(), random.bytes(2)));
    }
    if random.percent(10) {
        fill(random, &mut tlvs);
    }
    let mut response = Vec::new();
    tlvs.iter().for_each(|tlv| tlv.append(&mut response));
    response
}

fn general_result(random: &mut Random) -> u8 {
    match random.weighted(&[40, 8, 8, 10, 5, 8, 3, 6, 6, 6]) {
        0 => 0x00,
        1 => random.between(0x01, 0x0F) as u8,
        2 => 0x10,
        3 => 0x11,
        4 => 0x12,
        5 => 0x13,
        6 => 0x14,
        7 => random.between(0x20, 0x2F) as u8,
        8 => random.between(0x30, 0x3F) as u8,
        _ => random.byte(),
    }
}

/// What may follow the result: a text with its DCS, or something else.
fn output(random: &mut Random) -> Node {
    if random.percent(25) {
        let count = random.below(4);
        return Node::data(*random.pick(&[0x90, 0x10, 0x83, 0x9B]), random.bytes(count));
    }
    let mut text = Vec::new();
    if random.percent(92) {
        text.push(*random.pick(&[0x00, 0x04, 0x04, 0x08, 0xF4]));
        let count = match random.weighted(&[80, 20]) {
            0 => random.below(6),
            _ => random.between(100, 200),
        };
        text.extend(vec![*random.pick(b"abc"); count]);
    }
    Node::data(*random.pick(&[0x0D, 0x8D]), text)
}

/// Fills the response up to 253 to 257 bytes.
fn fill(random: &mut Random, tlvs: &mut Vec<Node>) {
    let used: usize = tlvs.iter().map(|tlv| tlv.to_bytes().len()).sum();
    let left = random.between(253, 257).saturating_sub(used);
    if left > 130 {
        tlvs.push(Node::data(0x8D, vec![0x04; left - 3]));
    }
}

pub fn bad_response(random: &mut Random, vocabulary: &Vocabulary) -> Vec<u8> {
    let mut response = good_response(random, vocabulary);
    match random.below(8) {
        0 => response.truncate(random.below(response.len())),
        1 => response.push(random.byte()),
        2 => response = vec![0x81, 0x03, 0x01, 0x21, 0x00],
        3 => response = vec![0x82, 0x02, 0x82, 0x81, 0x83, 0x00],
        4 => response.resize(random.between(256, 300), 0x00),
        5 => response.clear(),
        6 => response = vec![0x83, *random.pick(&[0x80, 0x83, 0x84, 0xFF]), 0x01, 0x00],
        _ => {
            let count = random.between(1, 12);
            response = random.bytes(count);
        }
    }
    response
}
