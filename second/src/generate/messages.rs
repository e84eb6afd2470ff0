//! Error messages, sound and broken in each way.

use super::{Generator, Random};
use crate::header::{CODE_CORRECTABLE, CODE_FATAL, CODE_NON_FATAL, MESSAGE_BYTES, MESSAGE_FIRST};
use crate::traffic::Event;

pub const CODES: [u8; 3] = [CODE_CORRECTABLE, CODE_NON_FATAL, CODE_FATAL];

/// The codes beside the three, and of INTx messages.
const OTHER_CODES: [u8; 7] = [0x32, 0x32, 0x2F, 0x34, 0x20, 0x27, 0x00];

pub fn sound(code: u8, random: &mut Random) -> Vec<u8> {
    let mut bytes = vec![MESSAGE_FIRST, 0, 0, 0];
    bytes.extend(requester(random));
    bytes.push(random.word() as u8); // the tag
    bytes.push(code);
    bytes.resize(MESSAGE_BYTES, 0);
    bytes
}

/// Often one of a few: a card that fails sends the same message again.
fn requester(random: &mut Random) -> [u8; 2] {
    let any = (random.word() as u16).to_be_bytes();
    match random.chance(40) {
        true => random.pick(&[[0, 0], [1, 0], [1, 0], [0xFF, 0xFF]]),
        false => any,
    }
}

pub fn broken(random: &mut Random) -> Vec<u8> {
    let mut bytes = sound(random.pick(&CODES), random);
    match random.below(16) {
        0..=3 => resize(&mut bytes, random),
        4 => bytes[0] = random.pick(&[0x34, 0x34, 0x31, 0x32, 0x70, 0x00]),
        5 => bytes[0] ^= 1 << random.below(8),
        6..=11 => {
            // A bit of a byte that has to be zero.
            let index = random.pick(&[1, 2, 3, 8, 9, 10, 11, 12, 13, 14, 15]);
            bytes[index] |= 1 << random.below(8);
        }
        12 | 13 => bytes[7] = random.pick(&OTHER_CODES),
        14 => bytes[7] ^= random.pick(&[0x04, 0x08, 0x40, 0x80]),
        _ => {
            // An INTx message.
            bytes[0] = 0x34;
            bytes[7] = random.between(0x20, 0x27) as u8;
        }
    }
    bytes
}

/// Cut, or followed by zeros.
fn resize(bytes: &mut Vec<u8>, random: &mut Random) {
    let length = match random.below(6) {
        0 => 0,
        1 => MESSAGE_BYTES - 1,
        2 => MESSAGE_BYTES + 1,
        3 => random.between(1, 14) as usize,
        4 => MESSAGE_BYTES + 4,
        _ => random.between(18, 80) as usize,
    };
    bytes.resize(length, 0);
}

/// Mostly sound.
pub fn any(random: &mut Random) -> Vec<u8> {
    match random.below(20) {
        0..=12 => sound(random.pick(&CODES), random),
        13 => {
            let count = random.between(0, 40) as usize;
            random.bytes(count)
        }
        _ => broken(random),
    }
}

impl Generator {
    pub(super) fn some_message(&mut self) {
        let bytes = any(&mut self.random);
        self.push(Event::Message { bytes });
    }

    pub(super) fn broken_message(&mut self) {
        let bytes = broken(&mut self.random);
        self.push(Event::Message { bytes });
    }

    pub fn message(&mut self, code: u8) {
        let bytes = sound(code, &mut self.random);
        self.push(Event::Message { bytes });
    }

    pub(super) fn message_of(&mut self, codes: &[u8]) {
        let code = self.random.pick(codes);
        self.message(code);
    }
}
