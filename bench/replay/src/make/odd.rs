//! What a lively capture has besides.

use super::{burst, Maker};
use crate::plain::Burst;
use crate::write;

impl Maker {
    /// Something that is mostly refused, or that fails.
    pub(super) fn odd(&mut self) {
        let wild = self.random.long();
        match self.random.below(9) {
            0 => {
                let shape = Burst {
                    address: 0x1233_FF00 + (wild & 0x1_01FF),
                    size: (wild >> 40) as u32 & 7,
                    beats: 1 + (wild >> 48) as u32 % 256,
                    kind: if wild >> 60 == 0 { 2 } else { 1 },
                };
                let _ = self.push(|out| write::read(out, shape));
            }
            1 => {
                let shape = burst(wild as u32 & 0xFFFC, 2, 1 + (wild >> 32) as u32 % 64);
                let data = vec![wild as u8; 4 + (wild >> 56) as usize];
                self.push(|out| write::write(out, shape, &data));
            }
            2 => {
                let chosen = (wild >> 63 == 1).then_some(((wild >> 59) as u32 & 15, wild as u32));
                let word = [0x18, 0x134, 0x138, 0x13C, 0x148, 0x154][self.random.index(6)];
                let bus = self.random.below(4) << 20;
                self.push(|out| write::config(out, bus | word, chosen));
            }
            3 => {
                let slot = wild as u32 & 15;
                self.push(|out| write::take(out, slot));
                self.waiting.retain(|waits| *waits != slot);
            }
            4 => self.push_failure(),
            5 if wild.is_multiple_of(8) => self.link(wild >> 63 == 1),
            6 => (0..wild % 3).for_each(|_| self.tick()),
            _ => self.spoilt(wild),
        }
    }

    /// A right completion with one bit turned.
    fn spoilt(&mut self, wild: u64) {
        if self.owed.is_empty() {
            return self.read();
        }
        let index = self.random.index(self.owed.len());
        let mut owed = self.owed[index];
        let (mut header, payload) = owed.answer(&mut self.random, 250);
        let bit = if wild >> 60 == 0 {
            17
        } else {
            wild as usize % 96
        };
        header[bit / 8] ^= 0x80 >> (bit % 8);
        let row = self.push(|out| write::completion(out, &header, &payload));
        if row[1] == 0 {
            self.owed.remove(index);
        }
    }
}
