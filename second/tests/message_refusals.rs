//! Refused messages and refused removals, with their exact answers and nothing
//! else changed; accepted messages change the error queue alone.

mod common;

use common::*;
use second::answer::Response;
use second::bridge::{Access, Bridge};
use second::settings::Settings;

const PAGE: u64 = 0x1234_0000;
const ERRORS: u64 = 0x154;
const CODES: [u8; 3] = [0x30, 0x31, 0x33];

/// The bridges are equal but for the error queue, its flag and bits 9 to 11.
fn equal_apart_from_errors(one: &Bridge, other: &Bridge) {
    assert_eq!(one.settings(), other.settings());
    assert_eq!(one.pieces(), other.pieces());
    assert_eq!(one.reads(), other.reads());
    assert_eq!(one.config_slot(), other.config_slot());
    assert_eq!(one.resting(), other.resting());
    assert_eq!(one.counter(), other.counter());
    let others = |bridge: &Bridge| {
        let [buses, off, decode, mask, link, _, _] = bridge.registers();
        [buses, off, decode & !0xE00, mask, link]
    };
    assert_eq!(others(one), others(other));
}

/// A bridge in the midst of work, with messages queued.
fn busy(link: bool) -> Bench {
    let mut b = Bench::up_with(|s| s.time_limit = 5);
    b.local_write(0x018, 0x0001_0100);
    b.local_write(0x13C, u32::MAX);
    b.read(PAGE, 2, 1);
    b.ticks(5); // a resting tag
    b.read(PAGE, 5, 8);
    b.config_read(0x0010_0000);
    b.messages(&[0x33]);
    b.link(link);
    b
}

/// A1.3: "exactly 16 bytes" and every byte of the layout; 12 with the link up
/// and down.
#[test]
fn number_12_for_messages() {
    let sound = message(0xABCD, 0x31);
    let mut broken = vec![vec![], sound[..1].to_vec(), sound[..8].to_vec()];
    broken.push(sound[..12].to_vec());
    broken.push(sound[..15].to_vec());
    for more in [1, 4, 16, 8176] {
        broken.push([&sound[..], &vec![0; more]].concat());
    }
    // Every other first byte and every other code, 32 and 20 to 27 among them.
    for byte in 0..=255 {
        let mut bytes = sound.clone();
        bytes[0] = byte;
        broken.extend((byte != 0x30).then_some(bytes));
        let bytes = message(0xABCD, byte);
        broken.extend((!CODES.contains(&byte)).then_some(bytes));
    }
    // Each bit of each byte that has to be zero.
    for index in (1..4).chain(8..16) {
        for bit in 0..8 {
            let mut bytes = sound.clone();
            bytes[index] = 1 << bit;
            broken.push(bytes);
        }
    }
    for link in [true, false] {
        let b = busy(link);
        for bytes in &broken {
            b.refuses(refusal(12, Response::None), |b| b.message(bytes));
        }
    }
    // Requester ID and tag are free.
    for (index, byte) in (4..7).flat_map(|i| [0, 1, 0x80, 0xFF].map(|b| (i, b))) {
        let mut bytes = sound.clone();
        bytes[index] = byte;
        assert_eq!(busy(true).message(&bytes), refusal(0, Response::None));
    }
}

/// A1.7: row 4 says SLVERR; A1.10: no trace is left.
#[test]
fn number_4_for_messages() {
    for code in CODES {
        let fresh = Bench::new(&Settings::example());
        for b in [fresh, busy(false)] {
            let bytes = message(0x0310, code);
            b.refuses(refusal(4, Response::Slverr), |b| b.message(&bytes));
        }
    }
    let mut full = Bench::up();
    full.messages(&[0x30; 32]);
    full.link(false);
    full.refuses(refusal(4, Response::Slverr), |b| {
        b.message(&message(1, 0x33))
    });
}

/// A1.1: a call of its own; as a completion such bytes are malformed.
#[test]
fn messages_are_no_completions() {
    let b = Bench::up();
    for code in CODES {
        let bytes = message(0x0310, code);
        b.refuses(refusal(12, Response::None), |b| b.complete(&bytes));
    }
}

#[test]
fn one_message_of_each_code() {
    let cases = [
        (0x30, 0x0000_0200, 0x0004_FFFE),
        (0x31, 0x0000_0400, 0x0005_FFFE),
        (0x33, 0x0000_0800, 0x0006_FFFE),
    ];
    for (code, decode, oldest) in cases {
        let mut b = Bench::up();
        let before = b.clone();
        assert_eq!(b.message(&message(0xFFFE, code)).number, 0);
        equal_apart_from_errors(&before.bridge, &b.bridge);
        assert_eq!((&before.store, &before.area), (&b.store, &b.area));
        assert_eq!(b.error_words(), [decode, 0x0001_0000, oldest]);
    }
}

/// A1.1: an accepted message changes the queue, its flag and its bit alone.
#[test]
fn a_message_changes_nothing_else() {
    for count in [0, 1, 31, 32] {
        let mut b = busy(true);
        b.messages(&vec![0x30; count]);
        let before = b.clone();
        b.messages(&[0x31]);
        equal_apart_from_errors(&before.bridge, &b.bridge);
        assert_eq!((&before.store, &before.area), (&b.store, &b.area));
        assert_eq!(b.decode(), before.decode() | 0x400);
    }
}

/// A1.5: a refused access removes nothing; nor does a write to a neighbour or
/// to word 154 of a function below.
#[test]
fn refused_and_other_writes_remove_nothing() {
    let mut b = Bench::routed(1);
    b.messages(&CODES);
    b.refuses(refusal(9, Response::Decerr), |b| {
        b.config((1 << 28) + ERRORS, true, 0, 15)
    });
    b.refuses(refusal(10, Response::Slverr), |b| {
        b.config(0x0020_0000 + ERRORS, true, 0, 15)
    });
    b.refuses(refusal(8, Response::None), |b| {
        let access = Access {
            offset: ERRORS,
            write: true,
            data: 0,
            strobes: 15,
        };
        b.bridge.config(&access, &mut b.area[..4607])
    });
    for offset in [0x150, 0x158, 0x054, 0x554, 0x15C] {
        b.local_write(offset, u32::MAX);
    }
    b.config(0x0010_0000 + ERRORS, true, 0, 15);
    b.refuses(refusal(5, Response::Wait), |b| {
        b.config(ERRORS, true, 0, 15)
    });
    assert_eq!(b.status(0, 0), 0);
    b.release(8);
    assert_eq!(b.error_words(), [0xE00, 0x0001_0000, 0x0004_0100]);
    assert_eq!(b.bridge.errors().entries().len(), 3);
}
