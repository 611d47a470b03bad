//! The names and numbers of one script: few, so that its pages meet each other.

use super::random::Random;

pub struct Vocabulary {
    pub pages: Vec<Vec<u8>>,
    pub anchors: Vec<Vec<u8>>,
    pub services: Vec<Vec<u8>>,
    pub passwords: Vec<Vec<u8>>,
    pub environment: Vec<u8>,
    pub permanent: Vec<u8>,
    pub temporary: Vec<u8>,
    pub command_types: Vec<u8>,
}

impl Vocabulary {
    pub fn new(random: &mut Random) -> Vocabulary {
        let mut pages: Vec<Vec<u8>> = vec![b"A".to_vec(), b"B".to_vec(), b"AB".to_vec()];
        if random.percent(40) {
            // An identification may hold '23'; references split at the last one.
            pages.push(b"A#1".to_vec());
        }
        if random.percent(25) {
            pages.push(name(random, 31, 32));
        }
        let mut anchors: Vec<Vec<u8>> = (b'1'..=b'6').map(|digit| vec![digit]).collect();
        anchors.push(b"11".to_vec());
        if random.percent(25) {
            anchors.push(name(random, 31, 32));
        }
        // One ID is the beginning of the other.
        let mut services = vec![b"A1".to_vec(), b"A1B".to_vec()];
        if random.percent(30) {
            services.push(name(random, 15, 16));
        }
        let mut passwords = vec![b"pw".to_vec(), b"pwd".to_vec()];
        if random.percent(30) {
            passwords.push(Vec::new());
        }
        if random.percent(20) {
            passwords.push(random.bytes(16));
        }
        Vocabulary {
            pages,
            anchors,
            services,
            passwords,
            environment: numbers(random, 0x00, &[0x00, 0x14, 0x3F]),
            permanent: numbers(random, 0x40, &[0x40, 0x41, 0x7F]),
            temporary: numbers(random, 0x80, &[0x80, 0x81, 0x82, 0x83, 0xBF]),
            command_types: vec![0x21, 0x23, 0x13, 0x25, random.byte()],
        }
    }

    /// Any number of the script, of any area.
    pub fn number(&self, random: &mut Random) -> u8 {
        match random.weighted(&[10, 30, 50, 5, 5]) {
            0 => *random.pick(&self.environment),
            1 => *random.pick(&self.permanent),
            2 => *random.pick(&self.temporary),
            3 => 0xC0 + random.below(6) as u8,
            _ => random.byte(),
        }
    }
}

fn name(random: &mut Random, least: usize, most: usize) -> Vec<u8> {
    vec![*random.pick(b"klmn"); random.between(least, most)]
}

/// The usual numbers of an area and two others.
fn numbers(random: &mut Random, area: u8, usual: &[u8]) -> Vec<u8> {
    let mut numbers = usual.to_vec();
    numbers.extend([0, 1].map(|_| area + random.below(64) as u8));
    numbers
}
