//! Header readers and writers.

mod common;

use common::*;
use second::header::*;
use second::settings::PcieAddress;

fn request(target: Target) -> Request {
    Request {
        write: false,
        target,
        length: 1,
        requester: 0x1234,
        tag: 5,
        last: 0,
        first: 15,
    }
}

fn memory(address: u64) -> Request {
    request(Target::Memory(PcieAddress(address)))
}

fn config(bus: u32, device: u32, function: u32, extended: u32, register: u32) -> Request {
    request(Target::Config {
        type1: true,
        bus,
        device,
        function,
        extended,
        register,
    })
}

fn number(value: &Request) -> u32 {
    let mut area = [0x77; 20];
    let written = write_request(value, &mut area);
    if written.number == 0 {
        let length = written.length as usize;
        assert_eq!(read_request(&area[..length]), Some(*value));
        assert_eq!(area[length..], [0x77; 20][length..]);
    } else {
        assert_eq!((written.length, area), (0, [0x77; 20]));
    }
    written.number
}

#[test]
fn request_ranges() {
    for address in [0, 4, u32::MAX as u64 - 3, 1 << 32, u64::MAX - 3] {
        assert_eq!(number(&memory(address)), 0);
    }
    for address in [1, 2, 3, u64::MAX] {
        assert_eq!(number(&memory(address)), 12);
    }
    assert_eq!(number(&config(255, 31, 7, 15, 63)), 0);
    for value in [
        config(256, 0, 0, 0, 0),
        config(0, 32, 0, 0, 0),
        config(0, 0, 8, 0, 0),
        config(0, 0, 0, 16, 0),
        config(0, 0, 0, 0, 64),
    ] {
        assert_eq!(number(&value), 12);
    }
    let two = Request {
        length: 2,
        last: 1,
        ..config(0, 0, 0, 0, 0)
    };
    assert_eq!(number(&two), 12);
}

#[test]
fn request_lengths_and_enables() {
    let cases = [
        (1, 0, 0, 0),
        (1, 0, 5, 0),
        (1, 1, 15, 12),
        (2, 0, 15, 12),
        (2, 15, 0, 12),
        (2, 5, 10, 0),
        (1024, 1, 1, 0),
        (1025, 1, 1, 12),
        (0, 0, 15, 12),
        (2, 16, 1, 12),
        (2, 1, 16, 12),
    ];
    for (length, last, first, expected) in cases {
        let value = Request {
            write: true,
            length,
            last,
            first,
            ..memory(64)
        };
        assert_eq!(number(&value), expected, "{value:?}");
    }
    let wide = |requester, tag| Request {
        requester,
        tag,
        ..memory(0)
    };
    assert_eq!(number(&wide(0xFFFF, 0xFF)), 0);
    assert_eq!(number(&wide(0x1_0000, 0)), 12);
    assert_eq!(number(&wide(0, 0x100)), 12);
}

#[test]
fn request_reader_refuses() {
    let good = [0x20, 0, 0, 1, 0, 0, 0, 0x0F, 0, 0, 0, 1, 0, 0, 0, 4];
    assert!(read_request(&good).is_some());
    assert_eq!(read_request(&good[..15]), None);
    assert_eq!(read_request(&[&good[..], &[0]].concat()), None);
    assert_eq!(read_request(&[]), None);
    for (at, byte) in [
        (0, 0x00),
        (0, 0x21),
        (1, 1),
        (2, 0x40),
        (2, 0x80),
        (2, 0x04),
        (3, 2),
        (7, 0x1F),
        (11, 0),
        (15, 5),
    ] {
        let mut bytes = good;
        bytes[at] = byte;
        assert_eq!(read_request(&bytes), None, "byte {at}");
    }
    let config = [5, 0, 0, 1, 0, 0, 0, 0x0F, 0xFF, 0xFF, 0x0F, 0xFC];
    assert!(read_request(&config).is_some());
    for (at, byte) in [(3, 2), (3, 0), (10, 0x10), (11, 1), (11, 2)] {
        let mut bytes = config;
        bytes[at] = byte;
        assert_eq!(read_request(&bytes), None, "byte {at}");
    }
}

#[test]
fn completion_round_trip() {
    for status in 0..8 {
        for count in [1, 4, 256, 4095, 4096] {
            let one = Completion {
                status,
                count,
                completer: 0xFFFF,
                requester: 0xFFFF,
                lower: 127,
                ..value(255)
            };
            let bytes = with_payload(&one, &[]);
            assert_eq!(read_completion(&bytes), Some(one));
        }
    }
    for length in [1, 255, 256, 1023, 1024] {
        let one = Completion {
            data: true,
            poisoned: true,
            length,
            ..value(1)
        };
        let bytes = with_payload(&one, &[]);
        assert_eq!(read_completion(&bytes), Some(one));
        assert_eq!(read_completion(&bytes[..11]), None);
        assert_eq!(read_completion(&[&bytes[..], &[0]].concat()), None);
    }
}

#[test]
fn completion_ranges() {
    let data = Completion {
        data: true,
        length: 1,
        ..value(1)
    };
    let none = value(1);
    let wrong = [
        Completion { length: 0, ..data },
        Completion {
            length: 1025,
            ..data
        },
        Completion { status: 1, ..data },
        Completion { length: 1, ..none },
        Completion {
            poisoned: true,
            ..none
        },
        Completion {
            completer: 1 << 16,
            ..none
        },
        Completion { status: 8, ..none },
        Completion { count: 0, ..none },
        Completion {
            count: 4097,
            ..none
        },
        Completion {
            requester: 1 << 16,
            ..none
        },
        Completion { tag: 256, ..none },
        Completion { lower: 128, ..none },
    ];
    for one in wrong {
        let mut area = [0x77; 16];
        let written = write_completion(&one, &mut area);
        assert_eq!((written.number, written.length), (12, 0), "{one:?}");
        assert_eq!(area, [0x77; 16]);
    }
}

#[test]
fn short_areas_come_first() {
    let mut area = [0x77; 15];
    let eight = Written {
        number: 8,
        length: 0,
    };
    assert_eq!(write_request(&memory(0), &mut area), eight);
    assert_eq!(write_request(&memory(1), &mut area), eight);
    assert_eq!(write_completion(&value(0), &mut area), eight);
    assert_eq!(area, [0x77; 15]);
    let mut area = [0x77; 16];
    let written = write_completion(&value(0), &mut area);
    assert_eq!((written.number, written.length), (0, 12));
    assert_eq!(area[12..], [0x77; 4]);
}

/// Every reader's value is written back to the bytes it came from, and every
/// one-bit change of a header is judged alike by both.
#[test]
fn readers_and_writers_agree_on_changed_bits() {
    let mut area = [0; 16];
    write_request(&memory(1 << 35), &mut area);
    let other = [0x44, 0, 0, 1, 0, 0, 9, 3, 1, 0, 2, 8];
    for header in [&area[..], &other[..]] {
        for bit in 0..8 * header.len() {
            let mut bytes = header.to_vec();
            bytes[bit / 8] ^= 1 << (bit % 8);
            if let Some(found) = read_request(&bytes) {
                let mut back = [0; 16];
                let length = write_request(&found, &mut back).length as usize;
                assert_eq!(back[..length], bytes);
            }
        }
    }
}
