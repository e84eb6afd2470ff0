//! What the other traffic does not have, or seldom: every field through its whole
//! range.

use super::{Generator, FEW_TICKS};
use crate::burst::Burst;
use crate::generate::bursts;
use crate::settings::AxiAddress;
use crate::traffic::Event;

const DATA_LIMIT: u32 = 4102;
const PAYLOAD_LIMIT: u32 = 4100;

impl Generator {
    /// Mostly a step of the other traffic.
    pub(super) fn packed_step(&mut self) {
        self.ticks_left = FEW_TICKS;
        match self.random.below(100) {
            0..=2 => {
                let burst = self.any_burst();
                self.read(burst);
            }
            3..=5 => self.any_write(),
            6 => self.raw_completion(),
            7 => {
                let slot = self.random.between(0, 15);
                self.release(slot);
            }
            8 => self.swing(),
            _ => self.step(),
        }
    }

    /// Any size code, type and number of beats, in the window or not.
    fn any_burst(&mut self) -> Burst {
        let lawful = bursts::lawful(self.machine.bridge.settings(), &mut self.random);
        let random = &mut self.random;
        let random_high = random.long() >> 32 << 32 | 1 << 40;
        let mut burst = lawful;
        match random.below(7) {
            0 => burst.size = random.between(0, 7),
            1 => burst.kind = random.between(0, 3),
            2 => burst.beats = random.pick(&[1, 2, 255, 256]),
            3 => burst.start = AxiAddress(random.long()),
            4 => {
                let edge = random.pick(&[0x1233_FFFF, 0x1235_0000, 0, u64::MAX, 1 << 32]);
                burst.start = AxiAddress(edge);
                burst.beats = 1;
            }
            // In the window but for its high half.
            5 => burst.start.0 |= random.pick(&[1 << 32, 1 << 63, random_high]),
            _ => {
                burst.size = random.between(0, 7);
                burst.kind = random.between(0, 3);
                burst.beats = random.between(1, 256);
            }
        }
        burst
    }

    /// Data of any length, mostly not the burst's.
    fn any_write(&mut self) {
        let burst = match self.random.chance(70) {
            true => bursts::lawful(self.machine.bridge.settings(), &mut self.random),
            false => self.any_burst(),
        };
        let right = burst.length().unwrap_or(4);
        let any = self.random.between(0, DATA_LIMIT);
        let near = self
            .random
            .between(right.saturating_sub(2), (right + 2).min(DATA_LIMIT));
        let above = self.random.between(4097, DATA_LIMIT);
        let length = self
            .random
            .pick(&[0, right, right, near, near, any, above, DATA_LIMIT]);
        let data = self.random.bytes(length as usize);
        let area = self.area();
        self.push(Event::Write { burst, area, data });
    }

    /// 12 bytes to 4,112, with any header or one that begins as it should.
    fn raw_completion(&mut self) {
        let any = self.random.between(0, PAYLOAD_LIMIT);
        let few = self.random.between(0, 8);
        let payload = self
            .random
            .pick(&[0, few, few, few, any, 4096, 4097, PAYLOAD_LIMIT]);
        let mut bytes = self.random.bytes(12 + payload as usize);
        if self.random.chance(70) {
            let words = payload / 4 % 1024;
            let first = if payload == 0 { 0x0A } else { 0x4A };
            let head = [first, 0, (words >> 8) as u8, words as u8];
            bytes[..4].copy_from_slice(&head);
            bytes[6] &= 0x0F;
        }
        let store = self.store();
        self.push(Event::Completion { store, bytes });
    }

    /// Ups and downs, said again or not.
    fn swing(&mut self) {
        for _ in 0..self.random.between(1, 3) {
            let up = self.random.chance(50);
            self.link(up);
        }
        self.link(true);
    }
}
