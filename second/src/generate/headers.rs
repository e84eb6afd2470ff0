//! Header values and header bytes, good and damaged.

use super::far::packet;
use super::Random;
use crate::header::{write_request, Completion, Request, Target};
use crate::settings::PcieAddress;
use crate::traffic::Event;

pub fn call(random: &mut Random) -> Event {
    match random.below(4) {
        0 => Event::RequestWriter {
            area: area(random),
            value: spoiled_request(random),
        },
        1 => Event::RequestReader {
            bytes: request_bytes(random),
        },
        2 => Event::CompletionWriter {
            area: area(random),
            value: spoiled_completion(random),
        },
        _ => Event::CompletionReader {
            bytes: completion_bytes(random),
        },
    }
}

fn area(random: &mut Random) -> u32 {
    match random.below(12) {
        0 => 15,
        1 => random.between(0, 15),
        2 => random.between(17, 200),
        _ => 16,
    }
}

fn lawful_request(random: &mut Random) -> Request {
    let memory = random.chance(65);
    let length = match memory {
        true => random.pick(&[1, 1, 2, 32, 255, 256, 1023, 1024]),
        false => 1,
    };
    Request {
        write: random.chance(50),
        target: match memory {
            true => Target::Memory(PcieAddress(address(random))),
            false => config_target(random),
        },
        length,
        requester: random.word() & 0xFFFF,
        tag: random.between(0, 255),
        last: if length == 1 {
            0
        } else {
            random.between(1, 15)
        },
        first: random.between(u32::from(length != 1), 15),
    }
}

fn address(random: &mut Random) -> u64 {
    let any = match random.below(5) {
        0 => u64::from(random.word()),
        1 => u64::from(u32::MAX),
        2 => 1 << 32,
        3 => u64::MAX,
        _ => random.long(),
    };
    any & !3
}

fn config_target(random: &mut Random) -> Target {
    Target::Config {
        type1: random.chance(50),
        bus: random.between(0, 255),
        device: random.between(0, 31),
        function: random.between(0, 7),
        extended: random.between(0, 15),
        register: random.between(0, 63),
    }
}

/// A lawful value, or one with a field out of its range.
fn spoiled_request(random: &mut Random) -> Request {
    let mut value = lawful_request(random);
    match random.below(16) {
        0 => value.length = random.pick(&[0, 1025, 2048, u32::MAX]),
        1 => value.requester = random.pick(&[0x1_0000, u32::MAX]),
        2 => value.tag = random.pick(&[256, u32::MAX]),
        3 => value.last = random.pick(&[0, 1, 16, u32::MAX]),
        4 => value.first = random.pick(&[0, 16, u32::MAX]),
        5 | 6 => spoil_target(&mut value.target, random),
        7 => value.length = value.length.max(2),
        _ => {}
    }
    value
}

fn spoil_target(target: &mut Target, random: &mut Random) {
    match target {
        Target::Memory(address) => address.0 |= random.below(3) + 1,
        Target::Config {
            bus,
            device,
            function,
            extended,
            register,
            ..
        } => match random.below(5) {
            0 => *bus = random.pick(&[256, u32::MAX]),
            1 => *device = random.pick(&[32, u32::MAX]),
            2 => *function = random.pick(&[8, u32::MAX]),
            3 => *extended = random.pick(&[16, u32::MAX]),
            _ => *register = random.pick(&[64, u32::MAX]),
        },
    }
}

fn request_bytes(random: &mut Random) -> Vec<u8> {
    let mut header = [0; 16];
    let written = write_request(&lawful_request(random), &mut header);
    let mut bytes = header[..written.length as usize].to_vec();
    if random.chance(45) {
        damage_request(&mut bytes, random);
    }
    bytes
}

fn damage_request(bytes: &mut Vec<u8>, random: &mut Random) {
    let config = bytes[0] & 4 != 0;
    match random.below(15) {
        11 | 14 if config => bytes[10] |= 0x10 << random.below(4),
        9 => bytes[2] |= 0x40,
        10 | 13 => bytes[3] = random.pick(&[0, 2, 3]),
        0 => bytes[0] = random.word() as u8,
        1 => bytes[0] ^= 0x20,
        2 => bytes[1] |= 1 << random.below(8),
        3 => bytes[2] |= 1 << random.between(2, 7),
        4 => bytes[7] ^= random.pick(&[0x0F, 0xF0, 0x10, 0x01]),
        5 => resize(bytes, random),
        6 => {
            let last = bytes.len() - 1;
            bytes[last] |= random.pick(&[1, 2, 3]);
        }
        7 | 12 => bytes[8..].iter_mut().take(4).for_each(|b| *b = 0),
        _ => flip(bytes, random),
    }
}

fn flip(bytes: &mut [u8], random: &mut Random) {
    let bit = random.below(8 * bytes.len() as u64) as usize;
    bytes[bit / 8] ^= 1 << (bit % 8);
}

/// Shorter or longer by a little, or empty.
pub fn resize(bytes: &mut Vec<u8>, random: &mut Random) {
    let length = match random.below(5) {
        0 => 0,
        1 => bytes.len() + 1,
        2 => bytes.len() + 4,
        3 => bytes.len() - 1,
        _ => random.below(bytes.len() as u64) as usize,
    };
    bytes.resize(length, 0);
}

fn lawful_completion(random: &mut Random) -> Completion {
    let data = random.chance(60);
    Completion {
        data,
        poisoned: data && random.chance(30),
        length: match data {
            true => random.pick(&[1, 1, 2, 32, 255, 256, 1023, 1024]),
            false => 0,
        },
        completer: random.word() & 0xFFFF,
        status: if data { 0 } else { random.between(0, 7) },
        count: random.pick(&[1, 4, 255, 256, 4095, 4096]),
        requester: random.word() & 0xFFFF,
        tag: random.between(0, 255),
        lower: random.between(0, 127),
    }
}

fn spoiled_completion(random: &mut Random) -> Completion {
    let mut value = lawful_completion(random);
    match random.below(18) {
        0 => value.length = random.pick(&[0, 1, 1025, u32::MAX]),
        1 => value.completer = random.pick(&[0x1_0000, u32::MAX]),
        2 => value.status = random.pick(&[1, 8, u32::MAX]),
        3 => value.count = random.pick(&[0, 4097, u32::MAX]),
        4 => value.requester = random.pick(&[0x1_0000, u32::MAX]),
        5 => value.tag = random.pick(&[256, u32::MAX]),
        6 => value.lower = random.pick(&[128, u32::MAX]),
        7 => value.poisoned = true,
        8 => value.data = !value.data,
        _ => {}
    }
    value
}

fn completion_bytes(random: &mut Random) -> Vec<u8> {
    let value = lawful_completion(random);
    let mut bytes = packet(&value, random);
    bytes.truncate(12);
    if random.chance(45) {
        damage_completion(&mut bytes, random);
    }
    bytes
}

/// Makes a completion malformed in one of the ways that 01 names, mostly.
pub fn damage_completion(bytes: &mut Vec<u8>, random: &mut Random) {
    match random.below(9) {
        0 => bytes[0] ^= 1 << random.below(8),
        1 => bytes[1] |= 1 << random.below(8),
        2 => bytes[2] |= random.pick(&[0x04, 0x08, 0x10, 0x20, 0x80]),
        3 => bytes[6] |= 0x10,
        4 => bytes[11] |= 0x80,
        5 => bytes[2] |= 0x40,
        6 => bytes[3] ^= 1,
        7 => bytes[6] ^= 0x20 << random.below(3),
        _ => resize(bytes, random),
    }
}
