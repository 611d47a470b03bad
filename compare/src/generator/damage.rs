//! Damage to a page: to its tree, with the lengths still right, or to its bytes.

use super::node::{Body, LengthForm, Node};
use super::random::Random;
use crate::page::SEPARATOR;

/// Damages a page once or more and hands back its bytes.
pub fn damage(random: &mut Random, mut page: Node) -> Vec<u8> {
    match random.weighted(&[60, 25, 10, 5]) {
        0 => {
            for _ in 0..random.weighted(&[0, 75, 20, 5]) {
                damage_tree(random, &mut page);
            }
            page.to_bytes()
        }
        1 => {
            let mut bytes = page.to_bytes();
            for _ in 0..random.weighted(&[0, 70, 20, 10]) {
                damage_bytes(random, &mut bytes);
            }
            bytes
        }
        2 => {
            damage_tree(random, &mut page);
            let mut bytes = page.to_bytes();
            damage_bytes(random, &mut bytes);
            bytes
        }
        _ if random.percent(30) => Vec::new(),
        _ => {
            pad(random, &mut page);
            page.to_bytes()
        }
    }
}

fn damage_bytes(random: &mut Random, bytes: &mut Vec<u8>) {
    if bytes.is_empty() {
        return;
    }
    let at = random.below(bytes.len());
    match random.weighted(&[20, 15, 15, 15, 15, 10, 10]) {
        0 => bytes[at] = random.byte(),
        1 => bytes[at] = bytes[at].wrapping_add(1),
        2 => bytes[at] = bytes[at].wrapping_sub(1),
        3 => bytes[at] ^= 1 << random.below(8),
        4 => drop(bytes.remove(at)),
        5 => bytes.insert(at, random.byte()),
        _ if random.percent(50) => bytes.truncate(at),
        _ => {
            let count = random.between(1, 3);
            bytes.extend(random.bytes(count));
        }
    }
}

/// A unit that brings the page to 4,095 to 4,098 bytes.
fn pad(random: &mut Random, page: &mut Node) {
    page.form = LengthForm::ThreeBytes;
    let total = random.between(4095, 4098);
    let long = |mut node: Node| {
        node.form = LengthForm::ThreeBytes;
        node
    };
    let padding = |length: usize| {
        let text = long(Node::data(0x8D, vec![0x61; length]));
        let execute = long(Node::nodes(0x46, [0x21, 0x00, 0x02], vec![text]));
        long(Node::nodes(0x0A, [], vec![execute]))
    };
    let used = page.to_bytes().len() + padding(0).to_bytes().len();
    if let (Some(length), Some(parts)) = (total.checked_sub(used), page.children()) {
        parts.push(padding(length));
    }
}

fn is_container(node: &Node) -> bool {
    matches!(node.body, Body::Nodes(_)) && !matches!(node.tag, 0x46 | 0xC6)
}

fn has_tag(tags: &'static [u8]) -> impl Fn(&Node) -> bool {
    move |node| tags.contains(&node.tag)
}

const TAGS: &[u8] = &[
    0x01, 0x02, 0x03, 0x04, 0x05, 0x06, 0x07, 0x08, 0x88, 0x09, 0x89, 0x0A, 0x8A, 0x0B, 0x0C, 0x0D,
    0x0E, 0x8E, 0x0F, 0x8F, 0x10, 0x11, 0x12, 0x13, 0x93, 0x14, 0x15, 0x95, 0x16, 0x17, 0x40, 0x41,
    0x42, 0x43, 0xC3, 0x44, 0x45, 0xC5, 0x46, 0xC6, 0x47, 0xC7, 0x48, 0x49, 0x4A, 0xCA, 0x4B, 0xCB,
    0x4C, 0x81, 0x82, 0xC0, 0x00,
];

fn damage_tree(random: &mut Random, page: &mut Node) {
    match random.weighted(&[14, 18, 10, 22, 20, 16]) {
        0 => deepen(random, page),
        1 => rearrange(random, page),
        2 => retag(random, page),
        3 => rename(random, page),
        4 => go_beyond_base(random, page),
        _ => overfill(random, page),
    }
}

/// Changes one node of those wanted, picked at random.
fn change(
    random: &mut Random,
    page: &mut Node,
    wanted: impl Fn(&Node) -> bool,
    mut apply: impl FnMut(&mut Random, &mut Node),
) {
    let place = random.below(1 << 16);
    page.change(wanted, |count| place % count, |node| apply(random, node));
}

/// A chain of containers that ends near the eighth level.
fn deepen(random: &mut Random, page: &mut Node) {
    let depth = random.between(4, 9);
    let top = *random.pick(&[0x41, 0x4B, 0x47, 0x11, 0x16]);
    let end = *random.pick(&[0x0D, 0x17, 0x0E, 0x46, 0x40]);
    let mut chain = match end {
        0x46 => Node::nodes(0x46, [0x21, 0x00, 0x02], vec![Node::data(0x8D, [0x04, 0x61])]),
        0x40 => Node::numbered(0x40, vec![(0x80, Node::data(0x0D, []))]),
        _ => Node::data(end, []),
    };
    for _ in 1..depth {
        chain = Node::nodes(*random.pick(&[0x10, 0x11, 0x12, 0x13, 0x43]), [], vec![chain]);
    }
    let fixed = match top {
        0x41 | 0x4B => vec![0x80],
        0x47 => vec![0x00, 0x01],
        _ => Vec::new(),
    };
    let chain = Node::nodes(top, fixed, vec![chain]);
    change(random, page, is_container, |random, node| insert(random, node, chain.clone()));
}

fn insert(random: &mut Random, container: &mut Node, node: Node) {
    if let Some(parts) = container.children() {
        parts.insert(random.between(0, parts.len()), node);
    }
}

/// Parts gone, doubled, changed about, or strange ones among them.
fn rearrange(random: &mut Random, page: &mut Node) {
    let kind = random.below(6);
    let stranger = Node::data(*random.pick(TAGS), Vec::new());
    let with_parts = |node: &Node| matches!(&node.body, Body::Nodes(parts) if !parts.is_empty());
    if kind == 5 {
        return change(random, page, has_tag(&[0x40]), leave_number);
    }
    change(random, page, with_parts, |random, node| {
        let Some(parts) = node.children() else { return };
        let at = random.below(parts.len());
        match kind {
            0 => drop(parts.remove(at)),
            1 => parts.insert(at, parts[at].clone()),
            2 => parts.swap(at, 0),
            3 => parts.clear(),
            _ => parts.insert(at, stranger.clone()),
        }
    });
}

/// A Set Variable that ends in a number with nothing to set it to.
fn leave_number(random: &mut Random, set_variable: &mut Node) {
    if let Body::Numbered(pairs) = &set_variable.body {
        let mut data = Vec::new();
        for (number, source) in pairs {
            data.push(*number);
            source.append(&mut data);
        }
        if random.percent(20) {
            data.clear();
        }
        data.push(0x80);
        set_variable.body = Body::Data(data);
    }
}

fn retag(random: &mut Random, page: &mut Node) {
    change(
        random,
        page,
        |_| true,
        |random, node| {
            node.tag = match random.weighted(&[60, 20, 20]) {
                0 => *random.pick(TAGS),
                1 => node.tag ^ 0x80,
                _ => random.byte(),
            };
        },
    );
}

/// Names that are too long, empty, equal to another or in a bad form.
fn rename(random: &mut Random, page: &mut Node) {
    let length = *random.pick(&[0, 1, 16, 17, 18, 31, 32, 33, 40]);
    match random.below(6) {
        0 => change(random, page, has_tag(&[0x0B]), |random, node| {
            let mut name = vec![b'z'; random.between(0, 3)];
            name.insert(random.between(0, name.len()), SEPARATOR);
            node.body = Body::Data(name);
        }),
        1 => {
            let mut name = None;
            change(random, page, has_tag(&[0x0B]), |_, node| name = Some(node.body.clone()));
            change(random, page, has_tag(&[0x0B]), |_, node| {
                if let Some(name) = &name {
                    node.body = name.clone();
                }
            });
        }
        2 | 3 => change(random, page, has_tag(&[0x02, 0x03, 0x04, 0x06, 0x0B]), |_, node| {
            node.body = Body::Data(vec![b'n'; length]);
        }),
        4 => change(random, page, has_tag(&[0x0C]), |random, node| {
            let references = ["#", "", "A", "##", "#1#", "A#B#"];
            node.body = Body::Data(random.pick(&references).as_bytes().to_vec());
        }),
        _ => change(random, page, has_tag(&[0x0C]), |random, node| {
            let mut reference = vec![b'n'; length];
            reference.insert(*random.pick(&[0, length]), SEPARATOR);
            node.body = Body::Data(reference);
        }),
    }
}

/// Byte codes and forms that the standard has and the base has not.
fn go_beyond_base(random: &mut Random, page: &mut Node) {
    match random.below(6) {
        0 | 1 => {
            let byte_code = other_byte_code(random);
            change(random, page, has_tag(&[0x0A, 0x8A]), |random, unit| {
                if let Some(parts) = unit.children() {
                    let at = if random.percent(80) { parts.len() } else { 0 };
                    parts.insert(at, byte_code.clone());
                }
            });
        }
        2 => change(random, page, has_tag(&[0x12]), |random, reference| {
            let anchor_reference = Node::data(0x0C, b"#1".to_vec());
            let submit = Node::nodes(0x13, [], vec![Node::data(0x14, [0x01, 0x61])]);
            let parts = match random.below(6) {
                0 => vec![Node::data(0x0D, [0x80])],
                1 => vec![submit],
                2 => vec![Node::nodes(0x93, [0x01], vec![])],
                3 => vec![anchor_reference.clone(), anchor_reference],
                4 => vec![Node::data(0x0E, [])],
                _ => vec![],
            };
            reference.body = Body::Nodes(parts);
        }),
        3 => change(random, page, has_tag(&[0x08]), |random, modifier| {
            modifier.tag = 0x88;
            modifier.head.insert(0, random.between(1, 3) as u8);
        }),
        4 => change(random, page, has_tag(&[0x08, 0x88]), |random, modifier| {
            if let Some(parts) = modifier.children() {
                match random.percent(50) {
                    true => parts.push(Node::nodes(0x09, [0x01], vec![])),
                    false => parts.insert(0, Node::data(*random.pick(&[0x0E, 0x0E, 0x8E]), [0x00])),
                }
            }
        }),
        _ => change(random, page, has_tag(&[0x09]), |random, action| {
            let performed = match random.below(3) {
                0 => Node::numbered(0x40, vec![(0x80, Node::data(0x0D, []))]),
                1 => Node::nodes(0x46, [0x21, 0x00, 0x02], vec![]),
                _ => other_byte_code(random),
            };
            *action = Node::nodes(0x09, [0x20], vec![performed]);
        }),
    }
}

/// A byte code of clause 13 that is not in the base; what it holds may be bad.
fn other_byte_code(random: &mut Random) -> Node {
    let text = Node::data(0x0E, [0x01, 0x61]);
    let list = Node::data(0x0D, [0x80]);
    let item = Node::nodes(0x11, [], vec![Node::data(0x0F, [0x01, 0x61]), text.clone()]);
    match random.below(9) {
        0 => Node::nodes(0x41, [0x80], vec![text, item.clone(), item]),
        1 => Node::data(0x42, [0x80, 0x81, 0x00, 0x01]),
        2 => Node::nodes(0x47, [0x00, 0x01], vec![Node::nodes(0x10, [], vec![text]), list]),
        3 => Node::nodes(0xC7, [0x01, 0x00, 0x01], vec![]),
        4 => Node::nodes(0x49, [0x80, 0x03], vec![list]),
        5 => Node::nodes(0x4A, [], vec![text]),
        6 => Node::nodes(0xCA, [0x01], vec![text, Node::data(0x0B, b"#".to_vec())]),
        7 => Node::nodes(0x4B, [0x80], vec![text]),
        _ => Node::nodes(0xCB, [0x00, 0x80], vec![Node::data(0x0C, b"no reference".to_vec())]),
    }
}

/// More units, modifiers or strings than there may be, or just as many.
fn overfill(random: &mut Random, page: &mut Node) {
    let kind = random.below(4);
    let count = random.between(0, 2);
    let modifier = Node::nodes(0x08, [0x20, 0x2F], vec![Node::nodes(0x09, [0x01], vec![])]);
    if kind == 1 {
        let wanted = has_tag(&[0x01, 0x81, 0x0A, 0x8A]);
        return change(random, page, wanted, |_, container| {
            if let Some(parts) = container.children() {
                let at = parts.iter().position(|part| matches!(part.tag, 0x08 | 0x88));
                let at = at.unwrap_or(usize::from(parts.len() > 1));
                parts.splice(at..at, vec![modifier.clone(); 30 + count]);
            }
        });
    }
    let Some(parts) = page.children() else { return };
    let is_unit = |part: &&Node| matches!(part.tag, 0x0A | 0x8A);
    match kind {
        0 => {
            let units = parts.iter().filter(is_unit).count();
            let missing = (63 + count).saturating_sub(units);
            parts.extend(vec![Node::nodes(0x0A, [], vec![]); missing]);
        }
        _ => {
            let pool = match kind {
                2 => vec![0x00; 63 + count],
                _ => {
                    let length = 254 + count;
                    let mut pool = vec![0x82, (length >> 8) as u8, length as u8];
                    pool.resize(3 + length, b's');
                    pool
                }
            };
            parts.retain(|part| part.tag != 0x07);
            let at = parts.iter().position(|part| part.tag >= 0x08).unwrap_or(parts.len());
            parts.insert(at, Node::data(0x07, pool));
        }
    }
}
