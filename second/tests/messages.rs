//! Error messages and their queue (02, request A1): worked figures and readings.

mod common;

use common::*;
use second::answer::Response;
use second::bridge::ErrorQueue;
use second::header::Message;
use second::settings::Settings;

const PAGE: u64 = 0x1234_0000;
const DECODE: u64 = 0x138;
const STATUS: u64 = 0x148;
const ERRORS: u64 = 0x154;
const CODES: [u8; 3] = [0x30, 0x31, 0x33];

fn entries(queue: &ErrorQueue) -> Vec<Message> {
    queue.entries().iter().copied().collect()
}

/// 32 messages of one code, then those of `more`.
fn full(code: u8, more: &[u8]) -> Bench {
    let mut b = Bench::up();
    b.messages(&[&[code; 32], more].concat());
    b
}

#[test]
fn one_message() {
    let mut b = Bench::up();
    let mut bytes = vec![0x30, 0, 0, 0, 0x01, 0x00, 0x07, 0x30];
    bytes.extend([0; 8]);
    assert_eq!(b.message(&bytes), refusal(0, Response::None));
    assert_eq!(b.error_words(), [0x0000_0200, 0x0001_0000, 0x0004_0100]);
}

#[test]
fn one_fatal_message() {
    let mut b = Bench::up();
    b.message(&message(0x0310, 0x33));
    assert_eq!(b.error_words(), [0x0000_0800, 0x0001_0000, 0x0006_0310]);
}

#[test]
fn three_messages_and_their_bits() {
    let mut b = Bench::up();
    b.read(PAGE, 9, 1); // bit 25
    b.messages(&CODES);
    assert_eq!(b.decode(), 0x0200_0E00);
    b.local_write(DECODE, u32::MAX);
    assert_eq!(b.local_read(DECODE), 0x0000_0E00);
    assert_eq!(b.local_read(ERRORS), 0x0004_0100);
    b.strobed_write(ERRORS, 0x0004_0100, 15);
    assert_eq!(b.local_read(ERRORS), 0x0005_0101);
    b.strobed_write(ERRORS, 0, 0);
    assert_eq!(b.local_read(ERRORS), 0x0006_0102);
    b.strobed_write(ERRORS, u32::MAX, 8);
    assert_eq!(b.error_words(), [0x0000_0E00, 0, 0]);
    b.local_write(DECODE, 0x0000_0400);
    assert_eq!(b.local_read(DECODE), 0x0000_0A00);
}

#[test]
fn overflow() {
    let mut b = full(0x30, &[]);
    assert_eq!(b.error_words(), [0x0000_0200, 0x0001_0000, 0x0004_0100]);
    assert_eq!(b.message(&message(7, 0x33)), refusal(0, Response::None));
    assert_eq!(b.error_words(), [0x0000_0A00, 0x0003_0000, 0x0004_0100]);
    b.strobed_write(ERRORS, 0, 15);
    assert_eq!(b.error_words(), [0x0000_0A00, 0x0003_0000, 0x0004_0101]);
    // Room for one more, and the dropped message does not come back.
    assert_eq!(b.message(&message(8, 0x31)).number, 0);
    assert_eq!(b.bridge.errors().entries().len(), 32);
    for _ in 0..31 {
        b.strobed_write(ERRORS, 0, 0);
    }
    assert_eq!(b.error_words(), [0x0000_0E00, 0x0003_0000, 0x0005_0008]);
    b.strobed_write(ERRORS, 0, 1);
    assert_eq!(b.error_words(), [0x0000_0E00, 0x0002_0000, 0]);
}

#[test]
fn mask() {
    let mut b = Bench::up();
    b.local_write(0x13C, u32::MAX);
    assert_eq!(b.local_read(0x13C), 0x03F0_0F01);
}

#[test]
fn a_fresh_bridge_has_no_messages() {
    let mut b = Bench::new(&Settings::example());
    assert_eq!(b.error_words(), [0, 0, 0]);
    assert_eq!(entries(b.bridge.errors()), []);
}

/// A1.2: of 148 bits 16 and 17 exist, and only 17 can be written.
#[test]
fn status_bits() {
    for strobes in 0..16 {
        let mut b = full(0x30, &[0x30]);
        b.strobed_write(STATUS, !0x0002_0000, strobes);
        assert_eq!(b.local_read(STATUS), 0x0003_0000);
        let mut empty = Bench::up();
        empty.strobed_write(STATUS, u32::MAX, strobes);
        assert_eq!(empty.local_read(STATUS), 0);
    }
}

/// A1.4, A1.5: any write removes the oldest entry, whatever data and strobes;
/// of an empty queue it removes nothing. Through any device and function.
#[test]
fn any_write_removes_the_oldest() {
    for strobes in (0..16).chain([16, 0x4_0000, u32::MAX]) {
        for data in [0, u32::MAX, 0x0004_0100] {
            let mut b = Bench::up();
            b.messages(&CODES);
            b.strobed_write(0xFF_000 + ERRORS + 3, data, strobes);
            assert_eq!(b.error_words(), [0xE00, 0x0001_0000, 0x0005_0101]);
            let mut empty = Bench::up();
            let before = empty.clone();
            empty.strobed_write(ERRORS, data, strobes);
            assert_eq!(empty, before);
        }
    }
}

/// "Reading 154 changes nothing", nor does reading 148 or 138.
#[test]
fn reading_changes_nothing() {
    let mut b = full(0x31, &[0x33]);
    let before = b.clone();
    for _ in 0..3 {
        assert_eq!(b.error_words(), [0xC00, 0x0003_0000, 0x0005_0100]);
    }
    assert_eq!(b, before);
}

/// A1.6: judged at the write, on the queue alone. A flag that is set does not
/// block; other ones of the write clear as ever; strobes choose bytes.
#[test]
fn clearing_error_bits() {
    let mut b = full(0x30, &[0x31, 0x33]);
    b.read(PAGE, 9, 1); // bit 25
    b.link(false); // bit 0
    assert_eq!(b.decode(), 0x0200_0E01);
    b.local_write(DECODE, 0x0200_0201);
    assert_eq!(b.decode(), 0x0000_0E00);
    for left in (0..32).rev() {
        b.local_write(DECODE, 0x0000_0E00);
        assert_eq!(b.decode(), 0x0000_0E00);
        b.strobed_write(ERRORS, 0, 0);
        assert_eq!(b.bridge.errors().entries().len(), left);
    }
    // Empty, and the flag still set.
    assert_eq!(b.error_words(), [0xE00, 0x0002_0000, 0]);
    b.strobed_write(DECODE, u32::MAX, 0xD);
    assert_eq!(b.decode(), 0x0000_0E00);
    b.strobed_write(DECODE, 0x0000_0200, 2);
    assert_eq!(b.decode(), 0x0000_0C00);
    b.strobed_write(DECODE, u32::MAX, 2);
    assert_eq!(b.error_words(), [0, 0x0002_0000, 0]);
}

/// A1.8: the flag stays until a one is written to it in a chosen byte, whatever
/// the queue holds.
#[test]
fn clearing_the_flag() {
    for removed in [0, 1, 31, 32] {
        let mut b = full(0x31, &[0x31]);
        for _ in 0..removed {
            b.strobed_write(ERRORS, u32::MAX, 15);
        }
        b.link(false);
        b.link(true);
        let rest = if removed == 32 { 0 } else { 0x0001_0000 };
        b.strobed_write(STATUS, u32::MAX, 0xB);
        b.strobed_write(STATUS, !0x0002_0000, 15);
        assert_eq!(b.local_read(STATUS), rest | 0x0002_0000);
        let before = entries(b.bridge.errors());
        b.strobed_write(STATUS, 0x0002_0000, 4);
        assert_eq!(b.local_read(STATUS), rest);
        assert_eq!(entries(b.bridge.errors()), before);
    }
    // A full queue sets it again.
    let mut b = full(0x31, &[0x31]);
    b.local_write(STATUS, u32::MAX);
    b.messages(&[0x30]);
    assert_eq!(b.error_words(), [0x600, 0x0003_0000, 0x0005_0100]);
}

/// A1.8: the bit of overflow is that of the dropped message's code.
#[test]
fn overflow_of_each_code() {
    for (code, decode) in [(0x30, 0x200), (0x31, 0x400), (0x33, 0x800)] {
        for filled in CODES {
            let mut b = full(filled, &[]);
            let before = b.clone();
            b.messages(&[code]);
            assert_eq!(b.decode(), before.decode() | decode);
            assert_eq!(
                entries(b.bridge.errors()),
                entries(before.bridge.errors()),
                "the newest is dropped"
            );
            assert_eq!(b.local_read(STATUS), 0x0003_0000);
        }
    }
}

/// A1.9: the line takes in bits 9 to 11, each through its own mask bit.
#[test]
fn line() {
    for (index, code) in CODES.into_iter().enumerate() {
        let mut b = Bench::up();
        let bit = 0x200 << index;
        b.local_write(0x13C, !bit);
        b.messages(&[code]);
        assert!(!b.bridge.line());
        b.local_write(0x13C, bit);
        assert_eq!(b.local_read(0x13C), bit);
        assert!(b.bridge.line());
        b.local_write(0x134, 0x100);
        assert!(!b.bridge.line());
        b.local_write(0x134, 0);
        b.strobed_write(ERRORS, 0, 0);
        assert!(b.bridge.line());
        b.local_write(DECODE, bit);
        assert!(!b.bridge.line());
    }
}

/// A1.10: a drop sets bit 0 and leaves queue, flag and bits.
#[test]
fn a_drop_leaves_the_queue() {
    let mut b = full(0x31, &[0x33]);
    let kept = entries(b.bridge.errors());
    b.link(false);
    assert_eq!(entries(b.bridge.errors()), kept);
    assert_eq!(b.error_words(), [0xC01, 0x0003_0000, 0x0005_0100]);
    // It can be emptied while the link is down.
    b.strobed_write(ERRORS, 0, 15);
    b.link(true);
    assert_eq!(entries(b.bridge.errors()), kept[1..]);
    assert_eq!(b.error_words(), [0xC01, 0x0003_0000, 0x0005_0101]);
}

/// A1.11: oldest first, over more messages than the queue holds at a time.
#[test]
fn oldest_first() {
    let mut b = Bench::up();
    for round in 0..100u32 {
        let code = CODES[round as usize % 3];
        b.message(&message(round * 517, code));
        if round >= 5 {
            let oldest = round - 5;
            let word = (oldest * 517) | (oldest % 3) << 16 | 1 << 18;
            assert_eq!(b.local_read(ERRORS), word);
            b.strobed_write(ERRORS, 0, round);
        }
        let nothing = if b.bridge.errors().is_empty() { 0 } else { 1 };
        assert_eq!(b.local_read(STATUS), nothing << 16);
    }
}
