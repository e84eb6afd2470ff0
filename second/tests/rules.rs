//! Completions, timeouts, the link and the traps for trainees.

mod common;

use common::*;
use second::answer::Response;

const PAGE: u64 = 0x1234_0000;

fn bit(number: u32) -> u32 {
    1 << number
}

#[test]
fn write_words_and_unwanted_bytes() {
    let mut b = Bench::up_with(|s| s.requester = 0xABCD);
    let bytes = run_of(1, 7);
    let got = b.write(PAGE + 0x7D, 3, 1, &bytes[..3]);
    assert_eq!(got, answer(0, Response::Okay, 0, 16, 0));
    let header = [0x40, 0, 0, 1, 0xAB, 0xCD, 0, 0x0E, 0x56, 0x71, 0, 0x7C];
    assert_eq!(b.sent(got), [&header[..], &[0, 1, 2, 3]].concat());
    let got = b.write(PAGE + 0x7D, 2, 2, &bytes);
    let next = [0x40, 0, 0, 1, 0xAB, 0xCD, 0, 0x0F, 0x56, 0x71, 0, 0x80];
    let wanted = [&header[..], &[0, 1, 2, 3], &next[..], &[4, 5, 6, 7]].concat();
    assert_eq!(b.sent(got), wanted);
    assert!(b.bridge.pieces().is_empty());
}

#[test]
fn four_word_headers_from_2_to_the_32() {
    let mut b = Bench::up_with(|s| {
        s.windows[0].base = 0;
        s.windows[0].size = 1 << 33;
        s.windows[0].target = 1 << 33;
    });
    let got = b.read(0x1_0000_0004, 2, 1);
    let header = [0x20, 0, 0, 1, 0, 0, 0, 0x0F, 0, 0, 0, 3, 0, 0, 0, 4];
    assert_eq!(b.sent(got), header);
    let got = b.write(4, 0, 1, &[7]);
    let sent = [
        0x60, 0, 0, 1, 0, 0, 0, 1, 0, 0, 0, 2, 0, 0, 0, 4, 7, 0, 0, 0,
    ];
    assert_eq!(b.sent(got), sent);
}

#[test]
fn longest_write_fills_the_area_exactly() {
    let mut b = Bench::up_with(|s| s.windows[0].target = 1 << 40);
    let got = b.write(PAGE, 5, 128, &run_of(0, 4096));
    assert_eq!(got.sent, 4608);
}

#[test]
fn last_page_of_the_address_space() {
    let mut b = Bench::up_with(|s| {
        s.windows[0].base = u64::MAX - 0xFFF;
        s.windows[0].size = 4096;
        s.windows[0].target = u64::MAX - 0xFFF;
        s.read_limit = 4096;
    });
    let got = b.read(u64::MAX - 0xFFF, 5, 128);
    assert_eq!(&b.sent(got)[..4], [0x20, 0, 0, 0]); // 1,024 words as 0
    let bytes = run_of(3, 4096);
    assert_eq!(b.data(0, 4096, 0, &bytes), 0);
    assert_eq!(b.look(0), (0, bytes));
    assert_eq!(b.read(u64::MAX, 0, 1).number, 0);
    assert_eq!(b.data(0, 1, 127, &[0, 0, 0, 9]), 0);
    assert_eq!(b.look(1), (0, vec![9]));
}

#[test]
fn split_completions_in_any_order_of_pieces() {
    let mut b = Bench::up();
    b.read(PAGE + 0x7A, 1, 10); // 6 bytes, then 14
    assert_eq!(b.data(1, 14, 0, &run_of(60, 8)), 0);
    assert_eq!(b.data(0, 6, 0x7A, &[0, 0, 50, 51]), 0);
    assert_eq!(b.data(0, 4, 0x7C, &[52, 53, 54, 55]), 0);
    assert_eq!(b.look(0).0, 14);
    // Over-long by less than a word is taken: 6 bytes are missing.
    assert_eq!(b.data(1, 6, 8, &run_of(68, 8)), 0);
    let wanted = [run_of(50, 6), run_of(60, 14)].concat();
    assert_eq!(b.look(0), (0, wanted));
    assert_eq!(b.release(0), taken(Response::Okay, 0, 1));
    assert_eq!(b.decode(), 0);
}

#[test]
fn statuses_of_a_memory_read() {
    let cases = [
        (1, Response::Decerr, 20),
        (3, Response::Decerr, 20),
        (4, Response::Slverr, 24),
        (5, Response::Decerr, 20),
        (6, Response::Decerr, 20),
        (7, Response::Decerr, 20),
    ];
    for (status, response, number) in cases {
        let mut b = Bench::up();
        b.read(PAGE, 2, 2);
        assert_eq!(b.data(0, 8, 0, &[1, 2, 3, 4]), 0);
        assert_eq!(b.status(0, status), 0);
        assert_eq!(b.decode(), bit(number));
        assert_eq!(b.look(0), (0, vec![0; 8]));
        assert_eq!(b.release(0), taken(response, 0, 1));
        assert_eq!(b.bridge.free_tags().len(), 32);
    }
}

#[test]
fn first_failed_piece_in_address_order() {
    let mut b = Bench::up();
    b.read(PAGE, 5, 12); // three pieces
    let store = b.store.clone();
    assert_eq!(b.status(2, 4), 0);
    assert_eq!(b.data(0, 128, 0, &run_of(1, 128)), 0);
    // Good data is stored although the read has failed already.
    assert_eq!(b.store[..128], run_of(1, 128));
    assert_eq!(b.look(0).0, 14);
    assert_eq!(b.status(1, 1), 0);
    assert_eq!(b.decode(), bit(20) | bit(24));
    assert_eq!(b.look(0), (0, vec![0; 384]));
    assert_eq!(b.store[384..], store[384..]);
    assert_eq!(b.release(0).response, Response::Decerr);
}

#[test]
fn poison_only_counts_down() {
    let mut b = Bench::up();
    b.read(PAGE, 2, 2);
    let store = b.store.clone();
    assert_eq!(b.complete(&poisoned(0, 8, 0, &[9; 4])).number, 0);
    assert_eq!(b.store, store);
    assert_eq!((b.decode(), b.tags()), (bit(23), vec![0]));
    assert_eq!(b.data(0, 4, 4, &[1, 2, 3, 4]), 0);
    assert_eq!(b.look(0), (0, vec![0; 8]));
    assert_eq!(b.release(0).response, Response::Slverr);
}

#[test]
fn poison_then_failure() {
    let mut b = Bench::up();
    b.read(PAGE, 2, 2);
    b.complete(&poisoned(0, 8, 0, &[9; 4]));
    assert_eq!(b.status(0, 1), 0);
    assert_eq!(b.decode(), bit(23) | bit(20));
    // The first cause gives the response: poison, not UR's DECERR.
    assert_eq!(b.release(0).response, Response::Slverr);
}

#[test]
fn a_drop_wins_over_an_earlier_ur() {
    let mut b = Bench::up();
    b.read(PAGE, 5, 8);
    b.status(0, 1);
    b.link(false);
    assert_eq!(b.decode(), bit(20) | bit(0));
    assert_eq!(b.release(0).response, Response::Slverr);
}

#[test]
fn trap_a_timed_out_tag_rests() {
    let mut b = Bench::up_with(|s| s.time_limit = 3);
    b.read(PAGE, 2, 1);
    b.ticks(2);
    b.read(PAGE, 2, 1);
    b.ticks(1);
    assert_eq!((b.tags(), b.bridge.resting()), (vec![1], &[0][..]));
    assert_eq!(b.decode(), bit(22));
    // A late completion is not expected and the tag stays at rest.
    assert_eq!(b.data(0, 4, 0, &[1, 2, 3, 4]), 13);
    assert_eq!(b.bridge.resting(), [0]);
    assert_eq!(b.release(0).response, Response::Slverr);
    let again = b.read(PAGE, 2, 1);
    assert_eq!((again.slot, b.area[6]), (0, 2));
    b.link(false);
    assert_eq!(b.bridge.free_tags().len(), 32);
}

#[test]
fn trap_a_lost_first_part_does_not_shift_bytes() {
    let mut b = Bench::up();
    b.read(PAGE, 2, 4);
    assert_eq!(b.data(0, 8, 8, &run_of(8, 8)), 13);
    assert_eq!(b.decode(), bit(21));
    assert_eq!(b.data(0, 16, 0, &run_of(0, 8)), 0);
    assert_eq!(b.data(0, 8, 8, &run_of(8, 8)), 0);
    assert_eq!(b.look(0), (0, run_of(0, 16)));
}

#[test]
fn trap_ages_around_the_counters_end() {
    let mut b = Bench::up_with(|s| s.time_limit = 65_535);
    b.bridge.set_counter(u32::MAX - 10);
    b.read(PAGE, 2, 1);
    b.ticks(65_534);
    assert_eq!(b.tags(), [0]);
    b.ticks(1);
    assert_eq!(b.tags(), []);
    assert_eq!(b.bridge.counter(), 65_524);
}

#[test]
fn link_drop_with_everything_open() {
    let mut b = Bench::up_with(|s| s.time_limit = 5);
    b.local_write(0x018, 0x0001_0100);
    b.local_write(0x13C, u32::MAX);
    b.read(PAGE, 2, 1); // will rest
    b.ticks(5);
    b.release(0);
    for slot in 0..8 {
        assert_eq!(b.read(PAGE, 2, 2).slot, slot);
    }
    b.data(1, 8, 0, &run_of(1, 8)); // slot 0 is finished
    b.data(2, 8, 0, &run_of(1, 4)); // slot 1 has a part
    b.config_read(0x0010_0000);
    let others = b.store.clone();
    assert_eq!(b.link(false), refusal(0, Response::None));
    assert_eq!(b.bridge.free_tags().len(), 32);
    assert_eq!(b.decode(), bit(22) | bit(0));
    assert!(b.bridge.line());
    assert_eq!(b.look(0), (0, run_of(1, 8)));
    assert_eq!(b.release(0).response, Response::Okay);
    for slot in 1..8 {
        assert_eq!(b.look(slot), (0, vec![0; 8]));
        let at = 4096 * slot as usize;
        assert_eq!(b.store[at + 8..at + 4096], others[at + 8..at + 4096]);
        assert_eq!(b.release(slot), taken(Response::Slverr, 0, 1));
    }
    assert_eq!(b.release(8), taken(Response::Slverr, 0, 1));
    assert_eq!(b.data(3, 8, 0, &run_of(1, 8)), 13);
    assert_eq!(b.local_read(0x018), 0x0001_0100);
}

#[test]
fn repeated_link_states_change_nothing() {
    let mut b = Bench::up();
    b.read(PAGE, 2, 1);
    b.refuses(refusal(0, Response::None), |b| b.link(true));
    b.link(false);
    b.local_write(0x138, 1);
    b.refuses(refusal(0, Response::None), |b| b.link(false));
}

#[test]
fn configuration_reads() {
    let cases = [
        (
            data(0, 4, 0, &[0x78, 0x56, 0x34, 0x12]),
            Response::Okay,
            0x1234_5678,
        ),
        (status_only(0, 1), Response::Okay, u32::MAX),
        (status_only(0, 3), Response::Okay, u32::MAX),
        (status_only(0, 2), Response::Slverr, 0),
        (status_only(0, 4), Response::Slverr, 0),
        (poisoned(0, 4, 0, &[1; 4]), Response::Slverr, 0),
    ];
    for (bytes, response, word) in cases {
        let mut b = Bench::routed(1);
        b.config_read(0x0010_0FFF);
        assert_eq!(b.complete(&bytes), refusal(0, Response::None));
        assert_eq!((b.decode(), b.tags()), (0, vec![]));
        assert_eq!(b.look(8), (0, vec![]));
        assert_eq!(b.release(8), taken(response, word, 1));
    }
}

#[test]
fn configuration_writes() {
    let cases = [
        (0, Response::Okay),
        (1, Response::Slverr),
        (7, Response::Slverr),
    ];
    for (status, response) in cases {
        let mut b = Bench::routed(2);
        let got = b.config(0x0020_7ABC, true, 0x1234_5678, 0x55);
        let sent = [
            0x45, 0, 0, 1, 0, 0, 0, 5, 2, 7, 0xA, 0xBC, 0x78, 0x56, 0x34, 0x12,
        ];
        assert_eq!(b.sent(got), sent);
        assert_eq!(b.data(0, 4, 0, &[0; 4]), 13); // data is not expected
        assert_eq!(b.complete(&data(0, 4, 0, &[0; 4])).number, 13);
        assert_eq!(b.status(0, status), 0);
        assert_eq!(b.release(8), taken(response, 0, 1));
    }
}

#[test]
fn wrong_shapes_for_configuration() {
    let mut b = Bench::routed(1);
    b.config_read(0x0010_0000);
    let list = [
        status_only(0, 0),
        data(0, 4, 4, &[0; 4]),
        data(0, 8, 0, &[0; 4]),
        data(0, 4, 0, &[0; 8]),
        poisoned(0, 4, 1, &[0; 4]),
    ];
    for bytes in list {
        assert_eq!(b.complete(&bytes).number, 13);
        assert_eq!(b.tags(), [0]);
    }
}

#[test]
fn configuration_timeout() {
    let mut b = Bench::up_with(|s| s.time_limit = 1);
    b.local_write(0x018, 0x0001_0100);
    b.config_read(0x0010_0000);
    b.ticks(1);
    assert_eq!(b.decode(), bit(8));
    assert_eq!(b.bridge.resting(), [0]);
    assert_eq!(b.release(8), taken(Response::Slverr, 0, 1));
    assert_eq!(b.status(0, 1), 13);
}

#[test]
fn local_words() {
    let mut b = Bench::up();
    for (offset, word) in [
        (0x018, 0x00FF_FFFF),
        (0x130, 0x0000_000B),
        (0x134, 0x0000_0100),
        (0x138, 0),
        (0x13C, 0x03F0_0F01),
        (0x140, 0),
        (0x144, 0x0000_0800),
        (0x148, 0),
        (0x154, 0),
        (0x000, 0),
    ] {
        b.local_write(0xFF_000 + offset, u32::MAX); // device 31, function 7
        if offset == 0x018 {
            assert_eq!(b.local_read(0x0FF0_0000 + offset), word);
            b.config(0x0FF0_0000 + offset, true, 0, 15);
            b.release(8);
            continue;
        }
        assert_eq!(b.local_read(offset + 3), word);
    }
}

#[test]
fn strobes_choose_bytes_and_ones_clear() {
    let mut b = Bench::up();
    b.config(0x13C, true, u32::MAX, 0x14); // mod 16: byte 2
    b.release(8);
    assert_eq!(b.local_read(0x13C), 0x00F0_0000);
    b.config(0x018, true, 0x0102_0304, 2);
    b.release(8);
    assert_eq!(b.local_read(0x018), 0x0000_0300);
    b.read(PAGE, 9, 1);
    b.status(0, 1);
    assert_eq!(b.decode(), bit(25) | bit(21));
    b.config(0x138, true, u32::MAX, 4);
    b.release(8);
    assert_eq!(b.decode(), bit(25));
    b.config(0x138, true, bit(21), 15);
    b.release(8);
    assert_eq!(b.decode(), bit(25));
}

#[test]
fn interrupt_line() {
    let mut b = Bench::up();
    b.read(PAGE, 9, 1);
    assert!(!b.bridge.line());
    b.local_write(0x13C, bit(25));
    assert!(b.bridge.line());
    b.local_write(0x134, 0x100);
    assert!(!b.bridge.line());
    b.local_write(0x134, !0x100);
    assert!(b.bridge.line());
    b.local_write(0x138, bit(25));
    assert!(!b.bridge.line());
}
