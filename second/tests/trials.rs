//! The generator reaches everything, and demand 3 holds, on a few seeds.

mod common;

use common::*;
use second::cover::Coverage;
use second::demand3::{alike, honest, Figures};

#[test]
fn two_hundred_seeds_cover_everything() {
    let (_, wrong) = Coverage::of_seeds(0, 199, 400).report();
    assert_eq!(wrong, Vec::<String>::new());
}

#[test]
fn demand_3_holds() {
    for seed in 0..60 {
        honest(seed, 500).unwrap();
        alike(seed, 500).unwrap();
    }
}

/// Alike's trials are not empty: pairs that begin with more queued than word 154
/// shows, and removals later.
#[test]
fn alike_begins_with_queued_messages() {
    let mut sum = Figures::default();
    for seed in 0..60 {
        sum.add(&honest(seed, 500).unwrap());
        sum.add(&alike(seed, 500).unwrap());
    }
    assert!(sum.alike_pairs_queued > 20, "{sum:?}");
    assert!(sum.alike_removed > 500, "{sum:?}");
    assert!(sum.messages > 200 && sum.removed > 50, "{sum:?}");
}

/// Reading 76, and what is true beyond it: the counters of the pairs differ, and
/// so do the numbers, by as much. Many answers are of an earlier life.
#[test]
fn session_numbers_of_the_trials() {
    let mut sum = Figures::default();
    for seed in 0..60 {
        sum.add(&honest(seed, 500).unwrap());
        sum.add(&alike(seed, 500).unwrap());
    }
    assert!(sum.alike_pairs_other > 50, "{sum:?}");
    assert!(sum.alike_taken_other > 3000, "{sum:?}");
    assert!(sum.taken > 1000 && sum.taken_later > 200, "{sum:?}");
}

/// A4.4: demand 3 as it was, with requests to devices above 0 among the others.
#[test]
fn devices_of_the_trials() {
    let mut sum = Figures::default();
    for seed in 0..60 {
        sum.add(&honest(seed, 500).unwrap());
    }
    assert!(sum.devices > 50 && sum.configs > 2 * sum.devices, "{sum:?}");
}

/// Why alike compares answers apart from their session numbers: the counter is
/// no register.
#[test]
fn equal_registers_and_other_numbers() {
    let past = |lives: u32| {
        let mut b = Bench::up();
        for _ in 1..lives {
            b.link(false);
            b.link(true);
        }
        b.link(false);
        b
    };
    let (mut one, mut other) = (past(1), past(3));
    assert_eq!(one.bridge.registers(), other.bridge.registers());
    for b in [&mut one, &mut other] {
        assert_eq!(b.config_read(0x130).number, 0);
    }
    let (left, right) = (one.release(8), other.release(8));
    assert_eq!((left.session, right.session), (1, 3));
    assert_eq!((left.response, left.data), (right.response, right.data));
}

/// Why the equal registers of demand 3 take in the whole queue: equal words 138,
/// 148 and 154 are not enough.
#[test]
fn equal_words_alone_are_not_alike() {
    let queue = |third: u8| {
        let mut b = Bench::up();
        b.messages(&[0x30, 0x31, third]);
        b.messages(&[0x33]); // so that all three bits are set in both
        b.link(false);
        b
    };
    let (mut one, mut other) = (queue(0x31), queue(0x33));
    assert_eq!(one.bridge.registers(), other.bridge.registers());
    for b in [&mut one, &mut other] {
        b.strobed_write(0x154, 0, 0);
    }
    // The second entries were equal still, the third ones are not.
    assert_eq!(one.bridge.registers(), other.bridge.registers());
    for b in [&mut one, &mut other] {
        b.strobed_write(0x154, 0, 0);
    }
    assert_eq!(one.local_read(0x154), 0x0005_0102);
    assert_eq!(other.local_read(0x154), 0x0006_0102);
}

#[test]
fn another_second_entry_shows_after_one_removal() {
    let queue = |second: u32| {
        let mut b = Bench::up();
        assert_eq!(b.message(&message(0x0100, 0x30)).number, 0);
        assert_eq!(b.message(&message(second, 0x30)).number, 0);
        b.link(false);
        b
    };
    let (mut one, mut other) = (queue(0x0200), queue(0x0300));
    assert_eq!(one.error_words(), other.error_words());
    assert_eq!(one.bridge.registers(), other.bridge.registers());
    one.strobed_write(0x154, 0, 15);
    other.strobed_write(0x154, 0, 15);
    assert_eq!(one.error_words(), [0x201, 0x0001_0000, 0x0004_0200]);
    assert_eq!(other.error_words(), [0x201, 0x0001_0000, 0x0004_0300]);
}
