//! Each refusal number, with its exact answer and that nothing else changed.

mod common;

use common::*;
use second::answer::{Answer, Response};
use second::bridge::{Access, Bridge};
use second::settings::{AxiAddress, Settings, Window};

const PAGE: u64 = 0x1234_0000;

/// The refusal changes one decode bit and nothing else.
fn sets_only(bench: &mut Bench, bit: u32, expected: Answer, call: impl Fn(&mut Bench) -> Answer) {
    let before = bench.clone();
    assert_eq!(call(bench), expected);
    assert_eq!(bench.decode(), before.decode() | 1 << bit);
    // Clearing that bit leads back to where it began.
    let mut cleared = bench.clone();
    cleared.local_write(0x138, 1 << bit);
    let mut also = before.clone();
    also.local_write(0x138, 1 << bit);
    assert_eq!(cleared, also);
}

fn breaks(change: impl Fn(&mut Settings)) {
    let mut settings = Settings::example();
    change(&mut settings);
    let (bridge, number) = Bridge::new(&settings);
    assert_eq!(number, 1);
    assert_eq!(bridge, Bridge::new(&Settings::example()).0);
}

#[test]
fn number_1_windows() {
    breaks(|s| s.count = 0);
    breaks(|s| s.count = 7);
    breaks(|s| s.windows[0].size = 0);
    breaks(|s| s.windows[0].size = 1 << 11);
    breaks(|s| s.windows[0].size = 3 << 12);
    breaks(|s| s.windows[0].base = 0x1234_8000);
    breaks(|s| s.windows[0].target = 0x5671_8000);
    breaks(|s| {
        s.windows[0] = Window {
            base: 0,
            size: 1 << 41,
            target: 0,
        }
    });
    breaks(|s| {
        s.count = 2;
        s.windows[1] = Window {
            base: 0x1234_F000,
            size: 0x1000,
            target: 0,
        }
    });
    breaks(|s| {
        s.count = 2;
        s.windows[1] = Window {
            base: 0,
            size: 1 << 40,
            target: 0,
        }
    });
}

#[test]
fn number_1_numbers() {
    breaks(|s| s.bus_bits = 0);
    breaks(|s| s.bus_bits = 9);
    for limit in [0, 64, 192, 8192] {
        breaks(|s| s.read_limit = limit);
    }
    for limit in [0, 64, 192, 2048, 4096] {
        breaks(|s| s.write_limit = limit);
    }
    breaks(|s| s.time_limit = 0);
    breaks(|s| s.time_limit = 65_536);
    breaks(|s| s.requester = 0x1_0000);
}

/// Seven windows of one page each.
fn seven() -> Vec<Window> {
    let page = |k: u64| Window {
        base: k << 12,
        size: 1 << 12,
        target: (9 - k) << 12,
    };
    (0..7).map(page).collect()
}

#[test]
fn number_1_lists() {
    let example = Bridge::new(&Settings::example());
    for length in [0, 7] {
        let made = Bridge::from_list(&seven()[..length], &Settings::example());
        assert_eq!(made, (example.0.clone(), 1));
    }
    let long = [seven(), seven()].concat();
    assert_eq!(Bridge::from_list(&long, &Settings::example()).1, 1);
    // A record, or another setting, that breaks its rule.
    let twice = [seven()[0], seven()[0]];
    assert_eq!(Bridge::from_list(&twice, &Settings::example()).1, 1);
    let mut others = Settings::example();
    others.time_limit = 0;
    assert_eq!(Bridge::from_list(&seven()[..2], &others).1, 1);
}

#[test]
fn lists_give_the_bridge_of_the_arrays() {
    for length in 1..7 {
        let mut settings = Settings::example();
        settings.count = length as u32;
        settings.windows = [Window::default(); 6];
        settings.windows[..length].copy_from_slice(&seven()[..length]);
        // The windows beside the list are not looked at.
        let made = Bridge::from_list(&seven()[..length], &Settings::example());
        assert_eq!(made, Bridge::new(&settings));
        assert_eq!(made.1, 0);
    }
}

#[test]
fn settings_at_their_edges_are_taken() {
    let accepted = |change: &dyn Fn(&mut Settings)| {
        let mut settings = Settings::example();
        change(&mut settings);
        assert_eq!(Bridge::new(&settings).1, 0);
    };
    accepted(&|s| s.windows[0].size = 1 << 12);
    accepted(&|s| {
        s.windows[0] = Window {
            base: 0u64.wrapping_sub(1 << 40),
            size: 1 << 40,
            target: 0u64.wrapping_sub(1 << 40),
        }
    });
    accepted(&|s| s.windows[1].size = 77); // past the count
    accepted(&|s| {
        s.count = 2;
        s.windows[1] = Window {
            base: 0x1235_0000,
            size: 0x1_0000,
            target: 0x5671_0000,
        }
    });
    accepted(&|s| s.read_limit = 4096);
    accepted(&|s| s.write_limit = 1024);
    accepted(&|s| s.time_limit = 1);
    accepted(&|s| s.requester = 0xFFFF);
}

#[test]
fn number_2() {
    let b = Bench::up();
    let expected = refusal(2, Response::Decerr);
    for start in [0x1233_FFFC, 0x1235_0000, 0, u64::MAX] {
        b.refuses(expected, |b| b.read(start, 0, 1));
        b.refuses(expected, |b| b.write(start, 0, 1, &[1]));
    }
    // Before 15 and 4.
    let down = Bench::new(&Settings::example());
    down.refuses(expected, |b| b.write(0, 0, 1, &[]));
}

#[test]
fn number_3() {
    let expected = refusal(3, Response::Slverr);
    let wrong = [
        (PAGE, 6, 1, 1),
        (PAGE, u32::MAX, 1, 1),
        (PAGE, 2, 0, 1),
        (PAGE, 0, 257, 1),
        (PAGE, 2, 1, 0),
        (PAGE, 2, 1, 2),
        (PAGE + 0xFFC, 2, 2, 1),
        (PAGE, 5, 129, 1),
        (u64::MAX, 0, 2, 1),
        (0, 9, 9, 9), // before 2
    ];
    for (start, size, beats, kind) in wrong {
        let call = |b: &mut Bench, write: bool| {
            let burst = second::burst::Burst {
                start: AxiAddress(start),
                size,
                beats,
                kind,
            };
            match write {
                true => b.bridge.write(&burst, &[], &mut b.area),
                false => b.bridge.read(&burst, &mut b.area),
            }
        };
        sets_only(&mut Bench::up(), 25, expected, |b| call(b, false));
        sets_only(&mut Bench::up(), 25, expected, |b| call(b, true));
    }
}

#[test]
fn number_4() {
    let mut b = Bench::new(&Settings::example());
    let expected = refusal(4, Response::Slverr);
    b.refuses(expected, |b| b.read(PAGE, 2, 1));
    b.refuses(expected, |b| b.write(PAGE, 2, 1, &[1, 2, 3, 4]));
    b.local_write(0x018, 0x0002_0100);
    for offset in [0x0010_0000, 0x0020_0000, 0x0020_8000] {
        b.refuses(expected, |b| b.config_read(offset));
    }
    // After 15, 10 and 11.
    b.refuses(refusal(15, Response::Slverr), |b| {
        b.write(PAGE, 2, 1, &[1, 2, 3])
    });
    b.refuses(refusal(10, Response::Slverr), |b| {
        b.config_read(0x0030_0000)
    });
    b.refuses(refusal(11, Response::Slverr), |b| {
        b.config_read(0x0010_8000)
    });
}

#[test]
fn number_5() {
    let expected = refusal(5, Response::Wait);
    // Its slot is open, then finished: refused until it is taken, before 9.
    let mut b = Bench::routed(1);
    b.config(0x0010_0000, true, 7, 15);
    b.refuses(expected, |b| b.config_read(0));
    b.refuses(expected, |b| b.config_read(u64::MAX));
    // An open configuration write does not block a memory read.
    assert_eq!(b.clone().read(PAGE, 2, 1).number, 0);
    b.status(0, 0);
    b.refuses(expected, |b| b.config_read(0));
    b.release(8);
    // An open configuration read does; a finished one does not.
    b.config_read(0x0010_0000);
    b.refuses(expected, |b| b.read(PAGE, 2, 1));
    assert_eq!(b.clone().write(PAGE, 0, 1, &[1]).number, 0);
    b.data(0, 4, 0, &[1, 2, 3, 4]);
    assert_eq!(b.read(PAGE, 2, 1).number, 0);
}

#[test]
fn number_6() {
    let mut b = Bench::up();
    for slot in 0..8 {
        assert_eq!(b.read(PAGE, 2, 1).slot, slot);
    }
    let expected = refusal(6, Response::Wait);
    b.refuses(expected, |b| b.read(PAGE, 2, 1));
    // A finished read holds its slot until it is released; 6 comes before 7.
    b.data(3, 4, 0, &[1, 2, 3, 4]);
    b.refuses(expected, |b| b.read(PAGE, 5, 128));
    b.release(3);
    let again = b.read(PAGE, 2, 1);
    assert_eq!(again, answer(0, Response::None, 3, 12, 0));
    assert_eq!(b.area[6], 3); // the lowest free tag
}

#[test]
fn number_7() {
    let mut b = Bench::routed(1);
    b.read(PAGE, 5, 124);
    assert_eq!(b.bridge.free_tags(), [31]);
    let expected = refusal(7, Response::Wait);
    b.refuses(expected, |b| b.read(PAGE + 0x7E, 2, 2));
    assert_eq!(b.read(PAGE, 2, 1).number, 0);
    b.refuses(expected, |b| b.config_read(0x0010_0000));
    b.refuses(expected, |b| b.config(0x0010_0000, true, 0, 0));
}

#[test]
fn number_8_sending_area() {
    let b = Bench::routed(1);
    let expected = refusal(8, Response::None);
    let access = Access {
        offset: 0,
        write: false,
        data: 0,
        strobes: 0,
    };
    b.refuses(expected, |b| {
        b.bridge.read(&burst(PAGE, 9, 9), &mut b.area[..4607])
    });
    b.refuses(expected, |b| {
        b.bridge
            .write(&burst(PAGE, 2, 1), &[1, 2, 3, 4], &mut b.area[..4607])
    });
    b.refuses(expected, |b| b.bridge.config(&access, &mut b.area[..4607]));
    let mut enough = b.clone();
    let got = enough
        .bridge
        .read(&burst(PAGE, 2, 1), &mut enough.area[..4608]);
    assert_eq!(got.number, 0);
}

#[test]
fn number_8_store() {
    let mut b = Bench::up_with(|s| s.time_limit = 1);
    b.read(PAGE, 2, 1);
    let expected = refusal(8, Response::None);
    let good = data(0, 4, 0, &[1, 2, 3, 4]);
    b.refuses(expected, |b| {
        b.bridge.complete(&good, &mut b.store[..32_767])
    });
    b.refuses(expected, |b| b.bridge.complete(&[], &mut []));
    b.refuses(expected, |b| b.bridge.tick(&mut b.store[..32_767]));
    b.refuses(expected, |b| b.bridge.link(false, &mut b.store[..32_767]));
    assert_eq!(b.complete(&good).number, 0);
    b.refuses(expected, |b| b.bridge.release(0, &b.store[..32_767]));
    b.refuses(expected, |b| b.bridge.release(9, &[]));
    assert_eq!(b.bridge.look(0, &b.store[..32_767]), (8, &[][..]));
    let exact = b.bridge.look(0, &b.store[..32_768]);
    assert_eq!(exact, (0, &[1, 2, 3, 4][..]));
}

#[test]
fn numbers_9_10_11() {
    let b = Bench::routed(2);
    for offset in [1 << 28, 1 << 32, u64::MAX] {
        b.refuses(refusal(9, Response::Decerr), |b| b.config_read(offset));
    }
    let past = 0x0030_8000; // device 1: 10 comes first
    b.refuses(refusal(10, Response::Slverr), |b| b.config_read(past));
    // On the secondary bus alone (tests/devices.rs).
    for offset in [0x0010_8000, 0x001F_8000] {
        b.refuses(refusal(11, Response::Slverr), |b| b.config_read(offset));
        b.refuses(refusal(11, Response::Slverr), |b| {
            b.config(offset, true, 1, 15)
        });
    }
    assert_eq!(b.clone().config_read(0x0020_8000).number, 0);
}

#[test]
fn number_12_completions() {
    let mut b = Bench::up();
    b.read(PAGE, 2, 1);
    let expected = refusal(12, Response::None);
    let good = data(0, 4, 0, &[1, 2, 3, 4]);
    let none = status_only(0, 1);
    let spoiled = |from: &[u8], at: usize, or: u8| {
        let mut bytes = from.to_vec();
        bytes[at] |= or;
        bytes
    };
    let mut list = vec![
        Vec::new(),
        good[..11].to_vec(),
        good[..15].to_vec(),
        [&good[..], &[0]].concat(),
        [&none[..], &[0; 4]].concat(),
        spoiled(&good, 0, 0x01),
        spoiled(&good, 0, 0x20),
        spoiled(&good, 1, 0x80),
        spoiled(&good, 2, 0x04),
        spoiled(&good, 2, 0x80),
        spoiled(&good, 6, 0x10),
        spoiled(&good, 6, 0x20), // data with a status
        spoiled(&good, 11, 0x80),
        spoiled(&none, 2, 0x40), // no data, EP
        spoiled(&none, 3, 0x01), // no data, a length
    ];
    // Judged before requester and tag.
    let stray = [spoiled(&good, 8, 0x55), spoiled(&good, 10, 0x1F)];
    list.extend(stray.iter().map(|bytes| spoiled(bytes, 1, 1)));
    for bytes in list {
        b.refuses(expected, |b| b.complete(&bytes));
    }
}

#[test]
fn number_13() {
    let mut b = Bench::up();
    b.read(PAGE, 2, 2);
    let expected = refusal(13, Response::None);
    let eight = [1, 2, 3, 4, 5, 6, 7, 8];
    let mut other = data(0, 8, 0, &eight);
    other[9] = 1;
    let list = [
        other,                                          // not our requester ID
        data(1, 8, 0, &eight),                          // tag not open
        data(200, 8, 0, &eight),                        // no such tag
        data(0, 4, 0, &eight),                          // count
        data(0, 8, 4, &eight),                          // lower address
        data(0, 8, 0, &[&eight[..], &[0; 4]].concat()), // too long
        status_only(0, 0),                              // success without data
        status_only(0, 2),                              // CRS
        poisoned(0, 4, 0, &eight),                      // wrong shape, poisoned
    ];
    for bytes in list {
        sets_only(&mut b, 21, expected, |b| b.complete(&bytes));
    }
    assert_eq!(b.data(0, 8, 0, &eight), 0);
    sets_only(&mut b, 21, expected, |b| b.complete(&status_only(0, 1)));
}

#[test]
fn number_14() {
    let mut b = Bench::routed(1);
    b.read(PAGE, 2, 1);
    b.config(0x0010_0000, true, 0, 15);
    let expected = refusal(14, Response::None);
    for slot in [0, 1, 7, 8, 9, 16, u32::MAX] {
        b.refuses(expected, |b| b.release(slot));
        assert_eq!(b.look(slot), (14, vec![]));
    }
    b.data(0, 4, 0, &[1, 2, 3, 4]);
    assert_eq!(b.release(0), taken(Response::Okay, 0, 1));
    b.refuses(expected, |b| b.release(0));
}

#[test]
fn number_15() {
    let b = Bench::up();
    let expected = refusal(15, Response::Slverr);
    for data in [&[][..], &[1][..], &[1, 2, 3][..]] {
        b.refuses(expected, |b| b.write(PAGE + 0xFFE, 2, 1, data));
    }
    assert_eq!(b.clone().write(PAGE + 0xFFE, 2, 1, &[1, 2]).number, 0);
}
