//! The streaming reader in any cutting, and the player with any allowances.

mod packed;

use packed::*;
use second::capture::{file, lines, next, record, Event, Next, Phase, Played, Player, Reader};
use second::capture::{Bench, Fault, Verdict, RECORD_LIMIT};
use second::generate::captures::{capture, damaged, edges};
use second::generate::Random;

/// Right captures, damaged ones and those at the edges, none very long.
fn files() -> Vec<Vec<u8>> {
    let mut list = vec![every_kind(), Vec::new()];
    for seed in (0..24).filter(|seed| seed % 16 != 5) {
        list.push(capture(seed, 120).bytes());
        list.push(damaged(seed, 120));
    }
    let short = |bytes: &Vec<u8>| bytes.len() < 70_000;
    list.extend(edges().into_iter().map(|(_, bytes)| bytes).filter(short));
    list
}

/// Blocks in any sizes, empty ones too.
fn cutting<'a>(bytes: &'a [u8], random: &mut Random) -> Vec<&'a [u8]> {
    let bound = random.pick(&[1, 2, 4, 30, 5000]);
    let mut blocks = Vec::new();
    let mut rest = bytes;
    while !rest.is_empty() {
        let length = random.between(0, bound).min(rest.len() as u32);
        let (block, more) = rest.split_at(length as usize);
        blocks.push(block);
        rest = more;
    }
    blocks
}

#[test]
fn byte_by_byte_is_the_files_reader() {
    for bytes in files() {
        let mut reader = Reader::default();
        let events: Vec<Event> = bytes.iter().filter_map(|b| reader.push(*b)).collect();
        assert_eq!((events, reader.verdict()), file(&bytes));
    }
}

#[test]
fn any_cutting_gives_the_same() {
    let mut random = Random::new(7);
    for bytes in files() {
        let mut whole = Reader::default();
        let expected = whole.feed(&bytes);
        assert_eq!((expected.clone(), whole.verdict()), file(&bytes));
        for _ in 0..5 {
            let mut reader = Reader::default();
            let mut events = Vec::new();
            for block in cutting(&bytes, &mut random) {
                events.extend(reader.feed(block));
            }
            assert_eq!((&events, &reader), (&expected, &whole));
        }
    }
}

/// At every place of a file with all kinds, in two parts and in three.
#[test]
fn every_single_cut() {
    let bytes = every_kind();
    let mut whole = Reader::default();
    let expected = whole.feed(&bytes);
    assert_eq!(expected.len(), 10);
    assert_eq!(whole.verdict(), Verdict::End(10));
    for first in 0..=bytes.len() {
        for second in first..=bytes.len() {
            let mut reader = Reader::default();
            let mut events = reader.feed(&bytes[..first]);
            events.extend(reader.feed(&bytes[first..second]));
            events.extend(reader.feed(&bytes[second..]));
            assert_eq!((&events, &reader), (&expected, &whole));
        }
    }
}

/// After each byte the reader says what a file that ended there would be.
#[test]
fn every_prefix_is_a_file() {
    for bytes in [every_kind(), damaged(3, 40), damaged(100, 40)] {
        let mut reader = Reader::default();
        for length in 0..=bytes.len() {
            assert_eq!(reader.verdict(), file(&bytes[..length]).1);
            if let Some(byte) = bytes.get(length) {
                reader.push(*byte);
            }
        }
    }
}

/// After the end, or a fault, no byte is taken.
#[test]
fn bytes_behind_are_not_read() {
    for text in [
        "00000400000000",
        "80",
        "510002",
        "51000180",
        "00000400000001",
    ] {
        let bytes = hex(text);
        let mut reader = Reader::default();
        assert_eq!(reader.feed(&bytes), []);
        assert_ne!(reader.phase(), Phase::Reading);
        let before = reader.clone();
        let (taken, event) = reader.step(&every_kind());
        assert_eq!((taken, event), (0, None));
        assert_eq!(reader.push(0x60), None);
        assert_eq!(reader, before);
        // In one block, they are left to the caller.
        let mut player = Player::default();
        let more = [bytes.clone(), every_kind()].concat();
        let played = player.play(&more, u64::MAX, |_, _, _| panic!("no event"));
        let taken = match text {
            "80" => 1,
            "510002" => 3,
            _ => bytes.len(),
        };
        let expected = Played {
            events: 0,
            bytes: taken,
        };
        assert_eq!(played, expected, "{text}");
    }
}

/// A fault takes the bytes on which it is judged, and no more.
#[test]
fn what_a_fault_takes() {
    let cases = [
        ("80 0000", Fault::Kind, 1),
        ("60 0001 00", Fault::Length, 3),
        ("61 0000 00", Fault::Padding, 3),
        ("00 0004 00000009 00", Fault::Count, 7),
    ];
    for (text, fault, size) in cases {
        let bytes = hex(text);
        assert_eq!(next(0, &bytes), Next::Bad { fault, size });
        for cut in 0..size {
            let mut reader = Reader::default();
            assert_eq!(reader.step(&bytes[..cut]), (cut, None));
            assert_eq!(reader.phase(), Phase::Reading);
            assert_eq!(reader.step(&bytes[cut..]), (size - cut, None));
            assert_eq!(reader.verdict(), Verdict::Bad(fault, 0));
        }
    }
}

fn lines_by(blocks: &[&[u8]], mut allowance: impl FnMut() -> u64) -> Vec<u8> {
    let mut player = Player::default();
    let mut text = format!("{}\n", lines::FIRST).into_bytes();
    for block in blocks {
        let mut rest = *block;
        while !rest.is_empty() && player.reads_on() {
            let most = allowance();
            let played = player.play(rest, most, |count, event, answer| {
                lines::event(&mut text, count, event, answer.number);
            });
            assert!(played.events <= most);
            rest = &rest[played.bytes..];
        }
    }
    text.extend(format!("{}\n", lines::last(player.verdict())).bytes());
    text
}

#[test]
fn any_cutting_and_allowances_give_the_same_lines() {
    let mut random = Random::new(8);
    for bytes in files() {
        let expected = lines::of(&bytes).into_bytes();
        for _ in 0..2 {
            let blocks = cutting(&bytes, &mut random);
            let found = lines_by(&blocks, || random.pick(&[0, 1, 2, 3, 50, u64::MAX]));
            assert_eq!(found, expected);
        }
    }
}

/// With an allowance of 0 nothing is judged, taken or changed.
#[test]
fn allowance_0() {
    for bytes in files() {
        let mut player = Player::default();
        player.play(&bytes[..bytes.len() / 2], 3, |_, _, _| {});
        let before = player.clone();
        let played = player.play(&bytes, 0, |_, _, _| panic!("no event"));
        assert_eq!(played, Played::default());
        assert_eq!(player, before);
    }
}

/// The number that comes back is the smaller of the allowance and of the events
/// that the definition finds; the bytes end behind the last event, or where there
/// is no further one.
#[test]
fn the_smaller_of_both() {
    for bytes in files() {
        let (events, _) = file(&bytes);
        let sizes = events.iter().map(|event| record(event).unwrap().len());
        let mut ends = vec![0];
        ends.extend(sizes.scan(0, |sum, size| {
            *sum += size;
            Some(*sum)
        }));
        let all = events.len() as u64;
        for allowance in [1, 2, all / 2, all, all + 1, u64::MAX] {
            let mut player = Player::default();
            let mut told = Vec::new();
            let played = player.play(&bytes, allowance, |count, event, _| {
                told.push((count, event.clone()));
            });
            let expected = allowance.min(all);
            assert_eq!(played.events, expected);
            let numbered = (1..).zip(events.iter().cloned());
            let first: Vec<_> = numbered.take(expected as usize).collect();
            assert_eq!(told, first);
            if allowance <= all && allowance > 0 {
                assert_eq!(played.bytes, ends[allowance as usize]);
                assert!(player.reads_on());
            }
            let mut bench = Bench::default();
            first.iter().for_each(|(_, event)| {
                bench.play(event);
            });
            assert_eq!(player.bench, bench);
        }
    }
}

/// Two calls with a and b are one with a + b.
#[test]
fn allowances_add_up() {
    let mut random = Random::new(9);
    for bytes in files() {
        let all = file(&bytes).0.len() as u32;
        let a = u64::from(random.between(0, all + 1));
        let b = u64::from(random.between(0, all + 1));
        let mut once = Player::default();
        let played = once.play(&bytes, a + b, |_, _, _| {});
        let mut twice = Player::default();
        let one = twice.play(&bytes, a, |_, _, _| {});
        let two = twice.play(&bytes[one.bytes..], b, |_, _, _| {});
        assert_eq!(played.events, one.events + two.events);
        assert_eq!(played.bytes, one.bytes + two.bytes);
        assert_eq!(once, twice);
    }
}

/// The end right behind the last allowed event is left to the next call.
#[test]
fn the_end_is_left_behind() {
    let bytes = hex("600000 600000 00000400000002");
    let mut player = Player::default();
    let first = player.play(&bytes, 2, |_, _, _| {});
    assert_eq!((first.events, first.bytes), (2, 6));
    assert!(player.reads_on());
    assert_eq!(player.verdict(), Verdict::Cut(2));
    let second = player.play(&bytes[6..], 0, |_, _, _| {});
    assert_eq!(second, Played::default());
    let third = player.play(&bytes[6..], 1, |_, _, _| {});
    assert_eq!((third.events, third.bytes), (0, 7));
    assert_eq!(player.verdict(), Verdict::End(2));
    // A fault likewise.
    let mut player = Player::default();
    player.play(&hex("600000 80"), 1, |_, _, _| {});
    assert_eq!(player.verdict(), Verdict::Cut(1));
}

/// A record counts in the call that completes it.
#[test]
fn a_record_over_many_calls() {
    let mut bytes = hex("201010 0000000012340000 AFE8");
    bytes.resize(RECORD_LIMIT, 0);
    let mut player = Player::default();
    for (index, byte) in bytes.iter().enumerate() {
        let played = player.play(&[*byte], 1, |_, _, _| {});
        let last = index + 1 == RECORD_LIMIT;
        assert_eq!((played.events, played.bytes), (u64::from(last), 1));
    }
    assert_eq!(player.verdict(), Verdict::Cut(1));
}
