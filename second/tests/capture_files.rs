//! Whole captures and their lines: the examples, faults and when each is known,
//! cuts, ends, a pinned capture.

mod packed;

use packed::*;
use second::capture::{file, lines, next, Event, Fault, Next, Reader, Verdict, LAYOUTS};

/// One record a line.
const PINNED: &str = include_str!("capture.hex");
const LINES: &str = include_str!("capture.lines");

fn one(text: &str) -> String {
    let list = lines_of(text);
    assert_eq!(list.len(), 1, "{list:?}");
    list[0].clone()
}

#[test]
fn the_example_of_02() {
    let bytes = hex("50 00 01 80 00 00 04 00 00 00 01");
    assert_eq!(lines::of(&bytes), "capture\n1 link up\nend 1 of 1\n");
    assert_eq!(lines::of(&bytes[..4]), "capture\n1 link up\ncut after 1\n");
    assert_eq!(lines::of(&[]), "capture\ncut after 0\n");
}

/// Each example record alone, on a fresh bridge: its line and a cut.
#[test]
fn example_records() {
    let list = [
        ("10000A 0000000012340ABC 4008", "1 read 4"),
        ("20000C 0000000012340ABD 0028 5AA5", "1 write 4"),
        ("300009 010000000000000000", "1 config 10"),
        ("300009 0000138FFFFFFFFF80", "1 config"),
        ("40000C 0A0000000000200400000000", "1 completion 13"),
        ("500001 80", "1 link up"),
        ("500001 00", "1 link down"),
        ("600000", "1 tick"),
        ("700001 80", "1 take 14"),
        ("700001 F0", "1 take 14"),
    ];
    for (text, line) in list {
        assert_eq!(lines_of(text), [line, "cut after 1"], "{text}");
        let whole = format!("{text} 00000400000001 FF");
        assert_eq!(lines_of(&whole), [line, "end 1 of 1"], "{text}");
    }
    assert_eq!(one("00000400000001"), "bad count at 0");
    assert_eq!(one("00000400000000"), "end 0 of 0");
}

/// When each fault is known, and which comes first.
#[test]
fn order_of_judging() {
    let list = [
        ("80", "bad kind at 0"),
        ("8F FFFF", "bad kind at 0"),
        ("F0", "bad kind at 0"),
        ("50", "cut after 0"),
        ("5F", "cut after 0"),
        ("50 00", "cut after 0"),
        // No tick has a high byte of 1, but a length is judged on three bytes.
        ("60 01", "cut after 0"),
        ("60 0100", "bad length at 0"),
        ("60 0001", "bad length at 0"),
        ("51 0002", "bad length at 0"),
        ("51 0001", "cut after 0"),
        ("51 0001 80", "bad padding at 0"),
        ("61 0000", "bad padding at 0"),
        ("50 0001 81", "bad padding at 0"),
        ("50 0001 40", "bad padding at 0"),
        ("70 0001 88", "bad padding at 0"),
        ("51 0001 80 80", "bad padding at 0"),
        ("00 0004 000000", "cut after 0"),
        ("01 0004 00000000", "bad padding at 0"),
        ("01 0004 00000001", "bad padding at 0"),
        ("00 0004 00000001", "bad count at 0"),
        ("00 0005", "bad length at 0"),
        ("00 0003", "bad length at 0"),
        ("10 000A 0000000000000000 0001", "bad padding at 0"),
        ("20 000B 0000000000000000 0004 00", "bad padding at 0"),
        ("30 0009 000000000000000001", "bad padding at 0"),
        ("30 0009 000000000000000040", "bad padding at 0"),
    ];
    for (text, line) in list {
        assert_eq!(one(text), line, "{text}");
    }
    let count = lines_of("60 00 00 00 00 04 00 00 00 02");
    assert_eq!(count, ["1 tick", "bad count at 3"]);
    // High byte first.
    let count = lines_of("60 00 00 00 00 04 01 00 00 00");
    assert_eq!(count, ["1 tick", "bad count at 3"]);
}

#[test]
fn every_file_of_one_byte() {
    for byte in 0..=255u8 {
        let expected = match byte {
            0..=127 => Verdict::Cut(0),
            _ => Verdict::Bad(Fault::Kind, 0),
        };
        assert_eq!(file(&[byte]), (vec![], expected), "{byte:02x}");
    }
}

/// Of the 65,536 lengths each kind takes those of the table, judged on three bytes.
#[test]
fn every_length() {
    for kind in 0..16u8 {
        for length in 0..=65_535u16 {
            let right = match kind {
                0 => length == 4,
                1 => length == 10,
                2 => (10..=4112).contains(&length),
                3 => length == 9,
                4 => (12..=4112).contains(&length),
                5 | 7 => length == 1,
                6 => length == 0,
                _ => false,
            };
            let [high, low] = length.to_be_bytes();
            let expected = match right {
                _ if kind > 7 => Verdict::Bad(Fault::Kind, 0),
                false => Verdict::Bad(Fault::Length, 0),
                true if kind == 6 => Verdict::Cut(1),
                true => Verdict::Cut(0),
            };
            assert_eq!(file(&[kind << 4, high, low]).1, expected);
        }
    }
}

/// Each spare bit by itself, in an otherwise sound record of zeros.
#[test]
fn every_bit_of_every_kind() {
    for layout in &LAYOUTS {
        let length = layout.shortest();
        let mut sound = vec![layout.kind << 4, 0, length as u8];
        sound.resize(3 + length, 0);
        let fields = layout.field_bytes() * 8 - layout.padding() as usize;
        for bit in (4..8).chain(24..24 + 8 * length) {
            let mut bytes = sound.clone();
            bytes[bit / 8] |= 0x80 >> (bit % 8);
            let spare = bit < 8 || (fields..layout.field_bytes() * 8).contains(&(bit - 24));
            let bad = file(&bytes).1 == Verdict::Bad(Fault::Padding, 0);
            assert_eq!(bad, spare, "{} bit {bit}", layout.name);
        }
    }
}

/// The longest records are read, and the bridge then refuses what they say.
#[test]
fn longest_records() {
    let mut write = hex("201010 0000000012340000 AFE8");
    write.resize(4115, 0);
    let (events, verdict) = file(&write);
    assert_eq!(verdict, Verdict::Cut(1));
    assert!(matches!(&events[0], Event::Write { data, .. } if data.len() == 4102));
    assert!(lines::of(&write).contains("1 write 15\n"));
    let mut completion = hex("401010");
    completion.resize(4115, 0xFF);
    assert!(lines::of(&completion).contains("1 completion 12\ncut after 1\n"));
    assert_eq!(file(&completion[..4114]).1, Verdict::Cut(0));
}

/// Size codes and types that no burst has, offsets, slots: all reach the bridge.
#[test]
fn what_the_bridge_judges() {
    let up = "500001 80";
    let list = [
        ("10000A 0000000012340ABC C008", "2 read 3"),
        ("10000A 0000000012340ABC E008", "2 read 3"),
        ("10000A 0000000012340ABC 4000", "2 read 3"),
        ("10000A 0000000012340ABC 4010", "2 read 3"),
        ("10000A 0000000012340ABC 4018", "2 read 3"),
        ("10000A 0000000012340FFC 4028", "2 read 3"),
        ("10000A 0000000012350000 4008", "2 read 2"),
        ("10000A 0000000012340ABC 4008", "2 read"),
        ("20000A 0000000012340ABC 4008", "2 write 15"),
        ("20000E 0000000012340ABC 4008 00000000", "2 write"),
        ("300009 FFFFFFF00000000000", "2 config 10"),
        ("300009 FFFFFFFFFFFFFFFF80", "2 config 10"),
        ("700001 00", "2 take 14"),
    ];
    for (text, line) in list {
        let found = lines_of(&format!("{up} {text} 00000400000002"));
        assert_eq!(found, ["1 link up", line, "end 2 of 2"], "{text}");
    }
}

#[test]
fn pinned_lines() {
    assert_eq!(lines::of(&hex(PINNED)), LINES);
}

/// Wherever it is cut, the lines before stand, and a cut is named.
#[test]
fn every_cut_of_a_file() {
    let bytes = hex(PINNED);
    let whole: Vec<&str> = LINES.lines().collect();
    let mut ends = Vec::new();
    let mut at = 0;
    for line in PINNED.lines() {
        at += hex(line).len();
        ends.push(at);
    }
    for length in 0..bytes.len() {
        let events = ends.iter().filter(|end| **end <= length).count();
        let mut expected = whole[..1 + events].to_vec();
        let last = format!("cut after {events}");
        expected.push(&last);
        let found = lines::of(&bytes[..length]);
        assert_eq!(found.lines().collect::<Vec<_>>(), expected, "{length}");
    }
}

/// A bad record is not played, and nothing behind it; its offset is that of its
/// first byte.
#[test]
fn a_fault_in_each_record() {
    let bytes = hex(PINNED);
    let whole: Vec<&str> = LINES.lines().collect();
    let mut at = 0;
    for (index, line) in PINNED.lines().enumerate() {
        let mut bad = bytes.clone();
        bad[at] |= 1;
        let mut expected = whole[..1 + index].to_vec();
        let last = format!("bad padding at {at}");
        expected.push(&last);
        assert_eq!(lines::of(&bad).lines().collect::<Vec<_>>(), expected);
        bad[at] |= 0x80;
        let last = format!("bad kind at {at}");
        *expected.last_mut().unwrap() = &last;
        assert_eq!(lines::of(&bad).lines().collect::<Vec<_>>(), expected);
        at += hex(line).len();
    }
}

/// "the number of earlier events": exact, not mod 2^32.
#[test]
fn counts_above_32_bits() {
    for count in [1 << 32, (1 << 32) + 5, u64::MAX] {
        for said in [0u32, 5, u32::MAX] {
            let bytes = [&[0, 0, 4][..], &said.to_be_bytes()].concat();
            let fault = Fault::Count;
            assert_eq!(next(count, &bytes), Next::Bad { fault, size: 7 });
        }
    }
}

/// A file of 2^32 ticks, of which all but the last are behind.
#[test]
fn the_last_right_count() {
    let most = u64::from(u32::MAX);
    let mut reader = Reader::after(3 * most, most);
    assert_eq!(reader.feed(&hex("000004 FFFFFFFF")), []);
    assert_eq!(reader.verdict(), Verdict::End(most));
    for count in ["00000000", "FFFFFFFF"] {
        let mut reader = Reader::after(3 * most, most);
        assert_eq!(reader.feed(&hex("600000")), [Event::Tick]);
        assert_eq!(reader.verdict(), Verdict::Cut(1 << 32));
        reader.feed(&hex(&format!("000004 {count}")));
        let at = 3 * (most + 1);
        assert_eq!(reader.verdict(), Verdict::Bad(Fault::Count, at));
        assert_eq!(lines::last(reader.verdict()), "bad count at 12884901888");
    }
    // At the end of 64 bits both numbers stay.
    let mut reader = Reader::after(u64::MAX - 1, u64::MAX);
    assert_eq!(reader.feed(&hex("600000")), [Event::Tick]);
    assert_eq!(reader.verdict(), Verdict::Cut(u64::MAX));
    reader.feed(&[0x80]);
    assert_eq!(reader.verdict(), Verdict::Bad(Fault::Kind, u64::MAX));
}
