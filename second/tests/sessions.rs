//! Session numbers (02, request A2): its examples and each reading (71 to 76 of
//! docs/DECISIONS.md).

mod common;

use common::*;
use second::answer::{Answer, Response};
use second::bridge::{Bridge, STORE_BYTES};
use second::settings::Settings;

const PAGE: u64 = 0x1234_0000;
const INFO: u64 = 0x130;
const BELOW: u64 = 0x0010_0000;

fn fresh() -> Bench {
    Bench::new(&Settings::example())
}

/// The link down, the counter at this value.
fn at(session: u32) -> Bench {
    let mut b = fresh();
    b.bridge.set_session(session);
    b
}

/// Down and up again so often.
fn lives(b: &mut Bench, count: u32) {
    for _ in 0..count {
        b.link(false);
        b.link(true);
    }
}

/// The number that an access has which is made and taken now.
fn local_session(b: &mut Bench) -> u32 {
    assert_eq!(b.config_read(INFO).number, 0);
    b.release(8).session
}

/// A read of one word, answered and taken now.
fn read_session(b: &mut Bench) -> u32 {
    let slot = b.read(PAGE, 2, 1).slot;
    let tag = u32::from(b.area[6]);
    assert_eq!(b.data(tag, 4, 0, &[1, 2, 3, 4]), 0);
    b.release(slot).session
}

#[test]
fn before_the_first_life() {
    let mut b = fresh();
    assert_eq!(b.config_read(INFO), answer(0, Response::None, 8, 0, 0));
    assert_eq!(b.release(8), taken(Response::Okay, 0xB, 0));
}

#[test]
fn an_answer_waits_over_a_drop_and_an_up() {
    let mut b = fresh();
    b.link(true);
    b.read(PAGE, 2, 1);
    assert_eq!(b.data(0, 4, 0, &[1, 2, 3, 4]), 0);
    b.link(false);
    b.link(true);
    assert_eq!(b.look(0), (0, vec![1, 2, 3, 4]));
    assert_eq!(b.release(0), taken(Response::Okay, 0, 1));
    assert_eq!(read_session(&mut b), 2);
}

#[test]
fn zero_after_the_last_value() {
    let mut b = at(u32::MAX);
    assert_eq!(local_session(&mut b), u32::MAX);
    b.link(true);
    assert_eq!(read_session(&mut b), 0);
    assert_eq!(local_session(&mut b), 0);
    lives(&mut b, 1);
    assert_eq!(read_session(&mut b), 1);
}

/// An answer of the last value's life is taken when the counter is at 1.
#[test]
fn kept_over_the_counters_end() {
    let mut b = at(u32::MAX - 1);
    b.link(true);
    b.read(PAGE, 2, 1);
    lives(&mut b, 2);
    assert_eq!(b.bridge.session(), 1);
    assert_eq!(b.release(0), taken(Response::Slverr, 0, u32::MAX));
}

/// Reading 71: only an accepted up of a down link counts.
#[test]
fn what_counts() {
    let mut b = fresh();
    let mut steps = |up: bool, length: usize, number: u32, session: u32| {
        let store = &mut b.store[..length];
        assert_eq!(b.bridge.link(up, store).number, number);
        assert_eq!(b.bridge.session(), session);
    };
    let short = STORE_BYTES - 1;
    steps(false, STORE_BYTES, 0, 0);
    steps(true, short, 8, 0);
    steps(true, STORE_BYTES, 0, 1);
    steps(true, STORE_BYTES, 0, 1);
    steps(true, short, 8, 1);
    steps(false, short, 8, 1);
    steps(true, STORE_BYTES, 0, 1);
    steps(false, STORE_BYTES, 0, 1);
    steps(false, STORE_BYTES, 0, 1);
    steps(true, short, 8, 1);
    steps(true, STORE_BYTES, 0, 2);
}

/// A refused link event changes nothing at all, the counter neither.
#[test]
fn a_refused_up_leaves_everything() {
    let mut b = at(7);
    b.config_read(INFO);
    b.refuses(refusal(8, Response::None), |b| {
        b.bridge.link(true, &mut b.store[..STORE_BYTES - 1])
    });
}

/// Reading 72: the number is that of acceptance, however the read is finished.
#[test]
fn each_way_to_finish_a_read() {
    let word = [1, 2, 3, 4];
    let ways: [(Response, Vec<u8>); 5] = [
        (Response::Okay, data(0, 4, 0, &word)),
        (Response::Decerr, status_only(0, 1)),
        (Response::Slverr, status_only(0, 4)),
        (Response::Slverr, poisoned(0, 4, 0, &word)),
        (Response::Slverr, vec![]), // ended by the drop
    ];
    for (response, bytes) in ways {
        for later in 0..4 {
            let mut b = at(40);
            b.link(true);
            b.read(PAGE, 2, 1);
            if !bytes.is_empty() {
                assert_eq!(b.complete(&bytes).number, 0);
            } else {
                b.link(false);
                b.link(true);
            }
            lives(&mut b, later);
            assert_eq!(b.release(0), taken(response, 0, 41));
        }
    }
}

#[test]
fn timeouts() {
    let mut b = Bench::up_with(|s| s.time_limit = 2);
    b.local_write(0x018, 0x0001_0100);
    lives(&mut b, 3);
    b.read(PAGE, 2, 1);
    b.config_read(BELOW);
    b.ticks(2);
    lives(&mut b, 1);
    assert_eq!(b.release(0), taken(Response::Slverr, 0, 4));
    assert_eq!(b.release(8), taken(Response::Slverr, 0, 4));
}

#[test]
fn routed_accesses() {
    let cases = [
        (
            false,
            data(0, 4, 0, &[4, 3, 2, 1]),
            Response::Okay,
            0x0102_0304,
        ),
        (false, status_only(0, 1), Response::Okay, u32::MAX),
        (false, status_only(0, 2), Response::Slverr, 0),
        (true, status_only(0, 0), Response::Okay, 0),
        (true, status_only(0, 1), Response::Slverr, 0),
    ];
    for (write, bytes, response, word) in cases {
        let mut b = Bench::routed(1);
        lives(&mut b, 1);
        b.config(BELOW, write, 0, 15);
        assert_eq!(b.complete(&bytes).number, 0);
        lives(&mut b, 2);
        assert_eq!(b.release(8), taken(response, word, 2));
        // The same, ended by the drop.
        b.config(BELOW, write, 0, 15);
        lives(&mut b, 1);
        assert_eq!(b.release(8), taken(Response::Slverr, 0, 4));
    }
}

/// A local access has the number of the life that ended while the link is down.
#[test]
fn local_accesses_with_the_link_down() {
    let mut b = at(9);
    for write in [false, true] {
        b.config(INFO, write, 0, 15);
        b.link(true);
        assert_eq!(b.release(8).session, 9 + u32::from(write));
        b.link(false);
    }
    assert_eq!(local_session(&mut b), 11);
    b.config_read(INFO);
    lives(&mut b, 5);
    assert_eq!(b.release(8), taken(Response::Okay, 0xB, 11));
}

/// Every slot keeps its own number, until it is taken; then the slot has
/// another.
#[test]
fn nine_answers_of_nine_lives() {
    let mut b = at(u32::MAX - 3);
    for _ in 0..8 {
        lives(&mut b, 1);
        b.read(PAGE, 2, 1);
    }
    lives(&mut b, 1);
    b.config_read(INFO);
    b.link(false);
    let first = u32::MAX - 2;
    for slot in (0..9).rev() {
        let response = if slot == 8 {
            Response::Okay
        } else {
            Response::Slverr
        };
        let data = if slot == 8 { 0xB } else { 0 };
        let session = first.wrapping_add(slot);
        assert_eq!(b.release(slot), taken(response, data, session));
        b.refuses(refusal(14, Response::None), |b| b.release(slot));
    }
    b.link(true);
    let slot = b.read(PAGE, 2, 1).slot;
    b.link(false);
    assert_eq!(slot, 0);
    assert_eq!(b.release(0).session, first.wrapping_add(9));
}

/// Reading 73: an accepted release alone reports it. A write is not kept.
#[test]
fn all_other_answers_have_session_0() {
    let mut b = at(99);
    let mut got: Vec<Answer> = vec![b.link(true)];
    b.local_write(0x018, 0x0001_0100);
    got.push(b.read(PAGE, 2, 1));
    got.push(b.write(PAGE, 2, 1, &[1, 2, 3, 4]));
    got.push(b.config(BELOW, true, 0, 15));
    got.push(b.complete(&data(0, 4, 0, &[1, 2, 3, 4])));
    got.push(b.complete(&status_only(1, 0)));
    got.push(b.tick());
    got.push(b.message(&message(1, 0x30)));
    got.push(b.link(true));
    got.push(b.link(false));
    assert!(got.iter().all(|a| a.number == 0 && a.session == 0));
    assert_eq!(b.release(8).session, 100);
    assert_eq!(b.config_read(INFO).session, 0);
    assert_eq!(b.release(8).session, 100);
}

#[test]
fn refused_answers_have_session_0() {
    let mut b = at(99);
    b.link(true);
    let got = [
        b.read(PAGE + 0x1_0000, 2, 1),
        b.read(PAGE, 6, 1),
        b.write(PAGE, 2, 1, &[1]),
        b.config_read(1 << 28),
        b.config_read(BELOW),
        b.complete(&[]),
        b.complete(&status_only(0, 0)),
        b.message(&[]),
        b.release(0),
    ];
    let numbers = got.map(|a| a.number);
    assert_eq!(numbers, [2, 3, 15, 9, 10, 12, 13, 12, 14]);
    assert!(got.iter().all(|a| a.session == 0));
    // Something is finished, but the store is too short; and is still open.
    b.config_read(INFO);
    b.read(PAGE, 2, 1);
    b.refuses(refusal(8, Response::None), |b| {
        b.bridge.release(8, &b.store[..STORE_BYTES - 1])
    });
    b.refuses(refusal(14, Response::None), |b| b.release(0));
    assert_eq!(b.release(8), taken(Response::Okay, 0xB, 100));
}

/// A look changes nothing, so the number is there for the release.
#[test]
fn looks_leave_the_number() {
    let mut b = at(4);
    b.link(true);
    b.read(PAGE, 2, 1);
    b.link(false);
    assert_eq!(b.look(0), (0, vec![0; 4]));
    assert_eq!(b.look(0), (0, vec![0; 4]));
    assert_eq!(b.release(0).session, 5);
}

/// Reading 75: no local word shows the counter, and none changes it.
#[test]
fn no_register() {
    let mut one = at(0);
    let mut other = at(0x1234_5678);
    assert_eq!(one.bridge.registers(), other.bridge.registers());
    for offset in (0..4096).step_by(4) {
        assert_eq!(one.local_read(offset), other.local_read(offset));
        if offset != 0x018 {
            other.local_write(offset, u32::MAX);
        }
    }
    assert_eq!(other.bridge.session(), 0x1234_5678);
}

/// "A fresh bridge", also the one that stands in a refused one's place.
#[test]
fn a_fresh_bridge_has_0() {
    let broken = Settings {
        bus_bits: 0,
        ..Settings::example()
    };
    let (bridge, number) = Bridge::new(&broken);
    assert_eq!((bridge.session(), number), (0, 1));
    let (bridge, number) = Bridge::new(&Settings::example());
    assert_eq!((bridge.session(), number), (0, 0));
}
