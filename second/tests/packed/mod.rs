//! Events and records of captures, by hand and by chance.
#![allow(dead_code)]

use second::burst::Burst;
use second::capture::{lines, record, Event, LAYOUTS};
use second::generate::Random;
use second::settings::AxiAddress;

/// Spaces and line ends do not count.
pub fn hex(text: &str) -> Vec<u8> {
    let digits: Vec<char> = text.chars().filter(|c| !c.is_whitespace()).collect();
    let byte = |pair: &[char]| u8::from_str_radix(&pair.iter().collect::<String>(), 16).unwrap();
    digits.chunks(2).map(byte).collect()
}

pub fn burst(start: u64, size: u32, beats: u32, kind: u32) -> Burst {
    Burst {
        start: AxiAddress(start),
        size,
        beats,
        kind,
    }
}

pub fn write_of(burst: Burst, data: &[u8]) -> Event {
    let data = data.to_vec();
    Event::Write { burst, data }
}

pub fn config_write(offset: u64, strobes: u32, data: u32) -> Event {
    Event::ConfigWrite {
        offset,
        strobes,
        data,
    }
}

/// The lines of a file given as hex, without the first.
pub fn lines_of(text: &str) -> Vec<String> {
    let all = lines::of(&hex(text));
    let mut list: Vec<String> = all.lines().map(str::to_string).collect();
    assert!(all.ends_with('\n'));
    assert_eq!(list.remove(0), "capture");
    list
}

/// Any event that a record can hold.
pub fn any_event(random: &mut Random) -> Event {
    let burst = burst(
        random.long() >> random.below(64),
        random.between(0, 7),
        random.between(1, 256),
        random.between(0, 3),
    );
    let few = random.between(0, 40);
    let many = random.between(0, 4100);
    let length = random.pick(&[0, few, few, few, many, 4100]) as usize;
    match random.below(9) {
        0 => Event::Read(burst),
        1 => Event::Write {
            burst,
            data: random.bytes(length + length / 2050),
        },
        2 => Event::ConfigRead {
            offset: random.below(1 << 28),
        },
        3 => config_write(random.below(1 << 28), random.between(0, 15), random.word()),
        4 => Event::Completion(random.bytes(12 + length)),
        5 => Event::Link { up: true },
        6 => Event::Link { up: false },
        7 => Event::Take {
            slot: random.between(0, 15),
        },
        _ => Event::Tick,
    }
}

/// Bytes that begin like a record of some kind, mostly with a right length, and
/// whose spare bits are mostly zero.
pub fn any_record(random: &mut Random) -> Vec<u8> {
    let layout = &LAYOUTS[random.below(8) as usize];
    let most = layout.longest().min(layout.shortest() + 20) as u32;
    let mut length = random.between(layout.shortest() as u32, most);
    if random.chance(5) {
        length = random.between(0, 20);
    }
    let mut bytes = vec![layout.kind << 4, 0, length as u8];
    bytes.extend(random.bytes(length as usize));
    let last = 2 + layout.field_bytes();
    if layout.padding() > 0 && last < bytes.len() && random.chance(90) {
        bytes[last] &= 0xFF << layout.padding();
    }
    if random.chance(5) {
        bytes[0] |= random.between(0, 15) as u8;
    }
    bytes
}

/// A file that has every kind of record, an end and more behind it.
pub fn every_kind() -> Vec<u8> {
    let events = [
        Event::Link { up: true },
        Event::Read(burst(0x1234_0ABC, 2, 1, 1)),
        write_of(burst(0x1234_0ABD, 0, 2, 1), &[0x5A, 0xA5]),
        config_write(0x018, 15, 0x0003_0100),
        Event::Take { slot: 8 },
        Event::ConfigRead { offset: 0x10_0000 },
        Event::Completion(hex("4A000001 00000004 0000003C 11223344")),
        Event::Tick,
        Event::Take { slot: 0 },
        Event::Link { up: false },
    ];
    let mut bytes: Vec<u8> = events.iter().flat_map(|e| record(e).unwrap()).collect();
    bytes.extend(hex("000004 0000000A"));
    bytes.extend(hex("600000 FF"));
    bytes
}
