//! The worked examples W1 to W12.

mod common;

use common::*;
use second::answer::Response;
use second::header::{read_request, Target};
use second::settings::{PcieAddress, Settings};

/// Address, length, first and last enables of the requests in the area.
fn requests(bench: &Bench, sent: u32) -> Vec<(u64, u32, u32, u32)> {
    let headers = bench.area[..sent as usize].chunks(12);
    let parsed = headers.map(|h| {
        let r = read_request(h).expect("a request");
        match r.target {
            Target::Memory(PcieAddress(a)) => (a, r.length, r.first, r.last),
            Target::Config { .. } => panic!("no memory request"),
        }
    });
    parsed.collect()
}

#[test]
fn w1_one_word_read() {
    let mut b = Bench::up();
    let before = b.area.clone();
    let got = b.read(0x1234_0ABC, 2, 1);
    assert_eq!(got, answer(0, Response::None, 0, 12, 0));
    let header = [0, 0, 0, 1, 0, 0, 0, 0x0F, 0x56, 0x71, 0x0A, 0xBC];
    assert_eq!(b.sent(got), header);
    assert_eq!(b.area[12..], before[12..]);
    assert_eq!(b.tags(), [0]);
}

#[test]
fn w2_three_pieces() {
    let mut b = Bench::up();
    let got = b.read(0x1234_0ABC, 2, 64);
    assert_eq!(got, answer(0, Response::None, 0, 36, 0));
    let list = requests(&b, got.sent);
    assert_eq!(
        list,
        [
            (0x5671_0ABC, 17, 15, 15),
            (0x5671_0B00, 32, 15, 15),
            (0x5671_0B80, 15, 15, 15)
        ]
    );
    let lengths: Vec<u32> = b.bridge.pieces().iter().map(|p| p.missing).collect();
    assert_eq!(lengths, [68, 128, 60]);
    assert_eq!(b.tags(), [0, 1, 2]);
}

#[test]
fn w3_unaligned_start() {
    let mut b = Bench::up();
    let got = b.read(0x1234_0ABE, 2, 2);
    assert_eq!(requests(&b, got.sent), [(0x5671_0ABC, 2, 0xC, 0xF)]);
    assert_eq!(b.data(0, 6, 0x3E, &[9, 9, 1, 2, 3, 4, 5, 6]), 0);
    assert_eq!(b.look(0), (0, vec![1, 2, 3, 4, 5, 6]));
}

#[test]
fn w4_two_bytes_of_one_word() {
    let mut b = Bench::up();
    let got = b.read(0x1234_0ABD, 0, 2);
    assert_eq!(requests(&b, got.sent), [(0x5671_0ABC, 1, 6, 0)]);
}

#[test]
fn w5_page_end() {
    let mut b = Bench::up();
    let got = b.read(0x1234_0FFE, 2, 1);
    assert_eq!(got.number, 0);
    assert_eq!(b.bridge.reads()[0].length, 2);
    let refused = b.read(0x1234_0FFC, 2, 2);
    assert_eq!(refused, refusal(3, Response::Slverr));
}

#[test]
fn w6_window_end() {
    let mut b = Bench::up();
    assert_eq!(b.read(0x1234_FFFC, 2, 1).number, 0);
    let refused = b.read(0x1235_0000, 2, 1);
    assert_eq!(refused, refusal(2, Response::Decerr));
}

#[test]
fn w7_type_0_read() {
    let mut b = Bench::routed(1);
    let got = b.config_read(0x0010_0000);
    assert_eq!(got, answer(0, Response::None, 8, 12, 0));
    assert_eq!(b.sent(got), [4, 0, 0, 1, 0, 0, 0, 0x0F, 1, 0, 0, 0]);
}

#[test]
fn w8_device_and_end_of_space() {
    let mut b = Bench::up_with(|s| s.bus_bits = 1);
    b.local_write(0x018, 0x0001_0100);
    let device = b.config_read(0x001F_FFFC);
    assert_eq!(device, refusal(11, Response::Slverr));
    let past = b.config_read(0x0020_0000);
    assert_eq!(past, refusal(9, Response::Decerr));
}

#[test]
fn w9_routing_of_a_fresh_bridge() {
    let mut b = Bench::new(&Settings::example());
    assert_eq!(b.local_read(0), 0);
    let other = b.config_read(0x0010_0000);
    assert_eq!(other, refusal(10, Response::Slverr));
    b.local_write(0x018, 0x0002_0300);
    let crossed = b.config_read(0x0030_0000);
    assert_eq!(crossed, refusal(10, Response::Slverr));
}

#[test]
fn w10_age_around_the_counters_end() {
    let mut b = Bench::up_with(|s| s.time_limit = 2);
    b.bridge.set_counter(4_294_967_295);
    assert_eq!(b.read(0x1234_0000, 2, 1).number, 0);
    b.ticks(1);
    assert_eq!((b.bridge.counter(), b.tags()), (0, vec![0]));
    assert_eq!(b.look(0).0, 14);
    b.ticks(1);
    assert_eq!((b.bridge.counter(), b.tags()), (1, vec![]));
    assert_eq!(b.look(0), (0, vec![0; 4]));
    assert_eq!(b.release(0).response, Response::Slverr);
}

#[test]
fn w11_whole_page_needs_every_tag() {
    let mut b = Bench::up_with(|s| s.time_limit = 1);
    assert_eq!(b.read(0x1234_0000, 5, 128).number, 0);
    assert_eq!(b.tags().len(), 32);
    b.link(false);
    b.release(0);
    b.link(true);
    b.read(0x1234_0000, 2, 1);
    b.ticks(1);
    assert_eq!(b.bridge.resting(), [0]);
    b.release(0);
    let refused = b.read(0x1234_0000, 5, 128);
    assert_eq!(refused, refusal(7, Response::Wait));
    assert_eq!(b.read(0x1234_0080, 5, 124).number, 0);
}

#[test]
fn w12_device_below_a_switch() {
    let mut b = Bench::routed(2);
    let before = b.area.clone();
    let got = b.config_read(0x0022_8000);
    assert_eq!(got, answer(0, Response::None, 8, 12, 0));
    assert_eq!(b.sent(got), [5, 0, 0, 1, 0, 0, 0, 0x0F, 2, 0x28, 0, 0]);
    assert_eq!(b.area[12..], before[12..]);
    assert_eq!(b.tags(), [0]);
}
