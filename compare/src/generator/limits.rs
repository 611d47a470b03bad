//! Byte codes that bring an area or a value close to its limit.

use super::node::Node;
use super::page_writer::{constant, PageWriter};

impl PageWriter<'_> {
    /// Codes that bring an area close to its room, its records or a value's end.
    pub(super) fn limit_codes(&mut self) -> Vec<Node> {
        let permanent = self.service.is_some() && self.random.percent(50);
        let area: u8 = if permanent { 0x40 } else { 0x80 };
        match self.random.below(3) {
            0 => self.record_codes(area),
            1 => self.room_codes(area),
            _ => self.long_value_codes(area),
        }
    }

    /// Many records, in several Set Variables of many pairs.
    fn record_codes(&mut self, area: u8) -> Vec<Node> {
        let count = self.random.between(40, 64);
        let mut pairs: Vec<(u8, Node)> = (0..count)
            .map(|place| {
                let length = self.random.below(2);
                (area + place as u8, constant(&self.text(length)))
            })
            .collect();
        self.readable.extend(pairs.iter().map(|(number, _)| *number));
        let mut codes = Vec::new();
        while !pairs.is_empty() {
            let taken = self.random.between(1, pairs.len());
            codes.push(Node::numbered(0x40, pairs.drain(..taken).collect()));
        }
        codes
    }

    /// Values of 255 bytes until the room is nearly full, then the exact rest,
    /// give or take a byte.
    fn room_codes(&mut self, area: u8) -> Vec<Node> {
        let mut lengths: Vec<usize> = (0..64)
            .map(|place| {
                let value = self.machine.read(area + place, self.service.as_deref());
                value.map_or(0, |value| value.bytes.len())
            })
            .collect();
        let mut others = 0;
        if area == 0x40 {
            for service in &self.vocabulary.services {
                if Some(service) != self.service.as_ref() {
                    let values =
                        (0..64).filter_map(|place| self.machine.read(area + place, Some(service)));
                    others += values.map(|value| value.bytes.len()).sum::<usize>();
                }
            }
        }
        let base = area + self.random.below(40) as u8;
        let place = usize::from(base & 0x3F);
        let mut codes = vec![Node::numbered(0x40, vec![(base, constant(&[0x61; 85]))])];
        lengths[place] = 85;
        for step in 1..=8 {
            let rest = 2048_usize.saturating_sub(others + lengths.iter().sum::<usize>());
            let number = base + step;
            let free = rest + lengths[place + usize::from(step)];
            if free < 255 {
                let length = (free + self.random.below(3)).saturating_sub(1);
                let text = self.text(length.min(255));
                codes.push(Node::numbered(0x40, vec![(number, constant(&text))]));
                break;
            }
            codes.push(Node::numbered(0x40, vec![(number, Node::data(0x0D, [base; 3]))]));
            lengths[place + usize::from(step)] = 255;
            self.readable.push(number);
        }
        self.readable.push(base);
        codes
    }

    /// A value of 254 to 256 bytes, made of others.
    fn long_value_codes(&mut self, area: u8) -> Vec<Node> {
        let base = area + self.random.below(60) as u8;
        let length = self.random.between(126, 128);
        let text = self.text(length);
        let tail = self.random.below(3);
        let tail = self.text(tail);
        self.readable.extend([base, base + 1, base + 2, base + 3]);
        let list = Node::data(0x0D, [base, base, base + 1]);
        let mut codes = vec![
            Node::numbered(0x40, vec![(base, constant(&text)), (base + 1, constant(&tail))]),
            // The length is taken before the value may turn out too long.
            Node::nodes(0x48, [base + 3], vec![list.clone()]),
            Node::numbered(0x40, vec![(base + 2, list)]),
        ];
        if self.random.percent(40) {
            // Lengths around 65,535 need a third byte.
            let count = self.random.between(256, 259);
            let list = Node::data(0x0D, vec![base + 2; count]);
            codes.push(Node::nodes(0x48, [base + 3], vec![list]));
        }
        codes
    }
}
