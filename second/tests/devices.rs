//! Devices above 0 (02, request A4): each reading, with exact bytes and answers.

mod common;

use common::*;
use second::answer::{Answer, Response};
use second::bridge::{Access, ConfigSlot, AREA_BYTES};
use second::settings::Settings;

const PAGE: u64 = 0x1234_0000;
/// W12's place: bus 2, device 5.
const BELOW: u64 = 0x0022_8000;

fn place(bus: u32, device: u32, function: u32, low: u32) -> u64 {
    u64::from(bus << 20 | device << 15 | function << 12 | low)
}

/// A read and a write are refused so, and nothing else changes.
fn refuses_both(b: &Bench, number: u32, offset: u64) {
    b.refuses(refusal_of(number), |b| b.config_read(offset));
    b.refuses(refusal_of(number), |b| {
        b.config(offset, true, 0x1234_5678, 15)
    });
}

fn refusal_of(number: u32) -> Answer {
    match number {
        7 => refusal(7, Response::Wait),
        9 => refusal(9, Response::Decerr),
        _ => refusal(number, Response::Slverr),
    }
}

/// The example bridge with these bits of bus, the link down, and these numbers.
fn numbered(bus_bits: u32, [primary, secondary, subordinate]: [u32; 3]) -> Bench {
    let settings = Settings {
        bus_bits,
        ..Settings::example()
    };
    let mut b = Bench::new(&settings);
    b.local_write(0x018, primary | secondary << 8 | subordinate << 16);
    b
}

fn up(mut b: Bench) -> Bench {
    assert_eq!(b.link(true).number, 0);
    b
}

/// The link up and no tag free.
fn without_tags(b: Bench) -> Bench {
    let mut b = up(b);
    assert_eq!(b.read(PAGE, 5, 128).number, 0);
    assert_eq!(b.bridge.free_tags(), []);
    b
}

/// The first number, in the order of 01, whose condition holds; A4.1 for 11.
fn due(b: &Bench, buses: [u32; 3], bus: u32, device: u32) -> u32 {
    let [primary, secondary, subordinate] = buses;
    let holds = |number: &u32| match number {
        10 => bus < secondary || bus > subordinate,
        11 => bus == secondary && device != 0,
        4 => !b.bridge.link_is_up(),
        _ => b.bridge.free_tags().is_empty(),
    };
    match bus == primary {
        true => 0, // "a local access stops after 9"
        false => [10, 11, 4, 7].into_iter().find(holds).unwrap_or(0),
    }
}

/// A request of requester 0 with tag 0.
fn header(first: u8, enables: u8, end: [u8; 4]) -> Vec<u8> {
    [[first, 0, 0, 1], [0, 0, 0, enables], end].concat()
}

/// An accepted read: local, or sent with this type.
fn accepts(b: &Bench, local: bool, type1: bool, bus: u32, device: u32) {
    let mut after = b.clone();
    let got = after.config_read(place(bus, device, 0, 0));
    if local {
        assert_eq!(got, answer(0, Response::None, 8, 0, 0));
        assert_eq!(after.area, b.area);
        assert_eq!(after.release(8).response, Response::Okay);
        return assert_eq!(&after, b);
    }
    assert_eq!(got, answer(0, Response::None, 8, 12, 0));
    let first = 4 + u8::from(type1);
    let end = [bus as u8, 8 * device as u8, 0, 0];
    assert_eq!(after.sent(got), header(first, 0x0F, end));
    assert_eq!(after.area[12..], b.area[12..]);
    assert_eq!(after.tags(), [0]);
}

/// All bus numbers of so many bits, and of secondary and subordinate one beyond:
/// crossed ranges, primary and secondary the same, primary inside.
fn numberings(bits: u32) -> Vec<[u32; 3]> {
    let end = 1 << bits;
    let all = 0..end * (end + 1) * (end + 1);
    let numbers = |i: u32| [i % end, i / end % (end + 1), i / end / (end + 1)];
    all.map(numbers).collect()
}

/// A4.1, for every bus of one and of two bits.
#[test]
fn number_11_exactly_on_the_secondary_bus() {
    let mut came = [0; 12];
    for bits in [1, 2] {
        for buses in numberings(bits) {
            let down = numbered(bits, buses);
            for b in [up(down.clone()), without_tags(down.clone()), down] {
                for case in 0..5 << bits {
                    let (bus, device) = (case / 5, [0, 1, 5, 16, 31][case as usize % 5]);
                    let number = due(&b, buses, bus, device);
                    match number {
                        0 => accepts(&b, bus == buses[0], bus != buses[1], bus, device),
                        _ => refuses_both(&b, number, place(bus, device, 0, 0)),
                    }
                    came[number as usize] += 1;
                }
            }
        }
    }
    // With one bit 5 of the numberings route the secondary bus and have another
    // primary one, with two bits 42: each in three states, with four devices.
    assert_eq!(came[11], (5 + 42) * 3 * 4);
    assert!(came[10] > 0 && came[4] > 0 && came[7] > 0);
}

/// A4.1 with every device and function, each state of the link.
#[test]
fn every_device_above_0_on_the_secondary_bus() {
    let down = numbered(8, [0, 1, 2]);
    for b in [up(down.clone()), without_tags(down.clone()), down] {
        for device in 1..32 {
            for function in 0..8 {
                refuses_both(&b, 11, place(1, device, function, 0xABC));
            }
        }
    }
}

/// A4.2: byte 9 is device x 8 + function, any of both.
#[test]
fn type_1_requests_carry_any_device() {
    let b = Bench::routed(255);
    for bus in [2, 3, 0x80, 0xFF] {
        for device in 0..32 {
            for function in 0..8 {
                let offset = place(bus, device, function, 0xABD);
                let end = [bus as u8, (8 * device + function) as u8, 0x0A, 0xBC];
                let mut read = b.clone();
                let got = read.config_read(offset);
                assert_eq!(got, answer(0, Response::None, 8, 12, 0));
                assert_eq!(read.sent(got), header(5, 0x0F, end));
                assert_eq!(read.area[12..], b.area[12..]);
                assert_eq!(
                    read.bridge.config_slot(),
                    ConfigSlot::OpenRead { session: 1 }
                );
                let mut write = b.clone();
                let got = write.config(offset, true, 0x1234_5678, 0x26);
                assert_eq!(got, answer(0, Response::None, 8, 16, 0));
                let header = header(0x45, 6, end);
                let sent = [&header[..], &[0x78, 0x56, 0x34, 0x12]].concat();
                assert_eq!(write.sent(got), sent);
                assert_eq!(write.area[16..], b.area[16..]);
                assert_eq!(
                    write.bridge.config_slot(),
                    ConfigSlot::OpenWrite { session: 1 }
                );
            }
        }
    }
}

/// A4.2: "type 0 has device 0 (its byte 9 is the function)".
#[test]
fn type_0_requests_carry_any_function_of_device_0() {
    let b = Bench::routed(2);
    for function in 0..8 {
        let offset = place(1, 0, function, 0xABD);
        let end = [1, function as u8, 0x0A, 0xBC];
        let mut read = b.clone();
        let got = read.config_read(offset);
        assert_eq!(read.sent(got), header(4, 0x0F, end));
        let mut write = b.clone();
        let got = write.config(offset, true, 0x1234_5678, 0x26);
        let header = header(0x44, 6, end);
        let sent = [&header[..], &[0x78, 0x56, 0x34, 0x12]].concat();
        assert_eq!(write.sent(got), sent);
    }
}

/// 8, 5, 9, 10, 11, 4, 7: each pair that can hold at once, the earlier given.
#[test]
fn order_of_refusals() {
    let device_1 = place(1, 1, 0, 0);
    // 8 before 11, 4 and 7.
    let down = numbered(8, [0, 1, 2]);
    for b in [up(down.clone()), without_tags(down.clone()), down.clone()] {
        for offset in [device_1, BELOW] {
            let access = Access {
                offset,
                write: false,
                data: 0,
                strobes: 0,
            };
            b.refuses(refusal(8, Response::None), |b| {
                b.bridge.config(&access, &mut b.area[..AREA_BYTES - 1])
            });
        }
    }
    // 5 before 9, 10, 11 and 4: a local answer waits.
    let mut waits = down.clone();
    assert_eq!(waits.config_read(0x130).number, 0);
    for offset in [1 << 28, place(3, 1, 0, 0), device_1, BELOW] {
        waits.refuses(refusal(5, Response::Wait), |b| b.config_read(offset));
    }
    // 9 before 10 and 11: the low bits of the bus alone would be routed.
    let narrow = numbered(1, [0, 1, 1]);
    for b in [up(narrow.clone()), narrow] {
        refuses_both(&b, 11, device_1);
        refuses_both(&b, 9, device_1 + (1 << 21));
        refuses_both(&b, 9, device_1 + (1 << 32));
    }
    // 10 before 11 and 4.
    refuses_both(&numbered(8, [0, 3, 2]), 10, place(3, 1, 0, 0));
    refuses_both(&down, 10, place(3, 1, 0, 0));
    // 11 before 4, and 4 for a device below.
    refuses_both(&down, 11, device_1);
    refuses_both(&down, 4, BELOW);
    refuses_both(&down, 4, place(2, 0, 0, 0));
    // 11 before 7, and 7 for a device below.
    refuses_both(&without_tags(down.clone()), 11, device_1);
    refuses_both(&without_tags(down), 7, BELOW);
}

/// "Primary = secondary: local", any device; the buses after it are routed.
#[test]
fn primary_and_secondary_the_same() {
    let down = numbered(8, [4, 4, 9]);
    for mut b in [up(down.clone()), down] {
        for device in [0, 1, 5, 31] {
            assert_eq!(b.local_read(place(4, device, 7, 0x130)), 0xB);
            b.strobed_write(place(4, device, 7, 0x13C), device, 15);
            assert_eq!(b.local_read(place(4, 0, 0, 0x13C)), device & 1);
        }
        assert!(b.bridge.pieces().is_empty());
        match b.bridge.link_is_up() {
            true => accepts(&b, false, true, 5, 31),
            false => refuses_both(&b, 4, place(5, 31, 0, 0)),
        }
    }
}

/// A primary bus between secondary and subordinate is local too.
#[test]
fn primary_inside_the_range() {
    let mut b = up(numbered(8, [3, 2, 4]));
    for device in [0, 1, 31] {
        assert_eq!(b.local_read(place(3, device, 0, 0x130)), 0xB);
        accepts(&b, false, true, 4, device);
    }
    refuses_both(&b, 11, place(2, 1, 0, 0));
}

/// "Secondary above subordinate: 10 even for bus = secondary", any device.
#[test]
fn secondary_above_subordinate() {
    let down = numbered(8, [0, 7, 5]);
    for b in [up(down.clone()), without_tags(down.clone()), down] {
        for bus in 4..9 {
            for device in [0, 1, 5, 31] {
                refuses_both(&b, 10, place(bus, device, 0, 0));
            }
        }
    }
}

/// The bus numbers of the moment decide.
#[test]
fn secondary_written_anew() {
    let mut b = Bench::routed(2);
    accepts(&b, false, true, 2, 5);
    b.local_write(0x018, 0x0002_0200);
    refuses_both(&b, 11, BELOW);
    accepts(&b, false, false, 2, 0);
    b.local_write(0x018, 0x0002_0000);
    accepts(&b, false, true, 2, 5);
    accepts(&b, false, true, 1, 31);
}

/// Completions of a type 1 read to a device above 0, as for any configuration
/// read.
#[test]
fn reads_are_answered() {
    let word = [0x78, 0x56, 0x34, 0x12];
    let cases = [
        (data(0, 4, 0, &word), Response::Okay, 0x1234_5678),
        (status_only(0, 1), Response::Okay, u32::MAX),
        (status_only(0, 3), Response::Okay, u32::MAX),
        (status_only(0, 2), Response::Slverr, 0),
        (status_only(0, 4), Response::Slverr, 0),
        (poisoned(0, 4, 0, &word), Response::Slverr, 0),
    ];
    for (bytes, response, word) in cases {
        let mut b = Bench::routed(2);
        let sent = b.config_read(BELOW);
        assert_eq!(b.sent(sent)[9], 0x28);
        b.refuses(refusal(5, Response::Wait), |b| b.read(PAGE, 2, 1));
        assert_eq!(b.status(0, 0), 13); // no data, but it is a read
        assert_eq!(b.data(0, 4, 4, &[0; 4]), 13);
        assert_eq!(b.complete(&bytes), refusal(0, Response::None));
        assert_eq!((b.decode(), b.tags()), (1 << 21, vec![]));
        assert_eq!(b.release(8), taken(response, word, 1));
        assert_eq!(b.bridge.free_tags().len(), 32);
    }
}

#[test]
fn writes_are_answered() {
    let cases = [
        (0, Response::Okay),
        (1, Response::Slverr),
        (2, Response::Slverr),
        (4, Response::Slverr),
        (7, Response::Slverr),
    ];
    for (status, response) in cases {
        let mut b = Bench::routed(2);
        assert_eq!(b.config(BELOW, true, 1, 15).sent, 16);
        assert_eq!(b.data(0, 4, 0, &[0; 4]), 13);
        assert_eq!(b.status(0, status), 0);
        assert_eq!((b.decode(), b.tags()), (1 << 21, vec![]));
        assert_eq!(b.release(8), taken(response, 0, 1));
    }
}

/// Timeout and drop end such an access as any other.
#[test]
fn timeout_and_drop() {
    for write in [false, true] {
        let mut b = Bench::up_with(|s| s.time_limit = 2);
        b.local_write(0x018, 0x0002_0100);
        assert_eq!(b.config(BELOW, write, 0, 15).number, 0);
        b.ticks(1);
        assert_eq!(b.tags(), [0]);
        b.ticks(1);
        assert_eq!((b.decode(), b.bridge.resting()), (1 << 8, &[0][..]));
        assert_eq!(b.release(8), taken(Response::Slverr, 0, 1));
        assert_eq!(b.status(0, 1), 13);
        let again = b.config(BELOW, write, 0, 15);
        assert_eq!(b.sent(again)[6], 1); // tag 0 rests
        b.link(false);
        assert_eq!(b.release(8), taken(Response::Slverr, 0, 1));
        refuses_both(&b, 4, BELOW);
    }
}

/// Such a write changes no local word, not even those of the same offset.
#[test]
fn local_words_stay() {
    let mut b = Bench::routed(2);
    b.messages(&[0x30, 0x31]);
    let before = b.bridge.registers();
    for word in [0x018, 0x134, 0x138, 0x13C, 0x148, 0x154] {
        let got = b.config(place(2, 31, 7, word), true, u32::MAX, 15);
        assert_eq!(b.sent(got)[8..10], [2, 0xFF]);
        assert_eq!(b.status(0, 0), 0);
        assert_eq!(b.release(8), taken(Response::Okay, 0, 1));
        assert_eq!(b.bridge.registers(), before);
    }
    assert_eq!(b.bridge.errors().entries().len(), 2);
}
