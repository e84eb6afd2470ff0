//! The reader of captures against a slow one that takes the file bit by bit and
//! plays what it reads on the slow model: right files, damaged ones, any cutting.

mod bits;
mod common;

use bits::file;
use common::*;
use replay::make::{capture, Mix};
use replay::plain::capture::{play, Reader, Verdict, ROW};
use replay::plain::record::Fault;
use replay::plain::Bridge;
use replay::random::Random;
use second::traffic::{Event, Machine, Outcome};

/// What the slow model says to a list.
fn slow_rows(list: &[Event]) -> (Vec<[u64; ROW]>, Machine) {
    let mut slow = Machine::new(&whiteboard());
    slow.store.fill(0);
    slow.area.fill(0);
    let mut rows = Vec::new();
    for event in list {
        let Outcome::Call(found) = slow.play(event) else {
            panic!("no call");
        };
        rows.push(answer(&found).row(name(event)));
    }
    (rows, slow)
}

/// Plays a file in blocks of `size` bytes at most with some allowances.
fn cut(bytes: &[u8], size: usize, random: &mut Random) -> (Vec<[u64; ROW]>, Verdict, Lent) {
    let mut bridge = Bridge::default();
    let mut reader = Reader::default();
    let mut store = vec![0; STORE];
    let mut area = vec![0; AREA];
    let mut rows = Vec::new();
    let mut at = 0;
    while at < bytes.len() {
        let block = &bytes[at..bytes.len().min(at + 1 + random.index(size))];
        let allowance = random.index(9);
        let mut buffer = vec![0; ROW * allowance];
        let result = play(
            &mut bridge,
            &mut reader,
            &mut store,
            &mut area,
            &mut buffer,
            block,
            allowance,
        );
        assert!(result.played <= allowance);
        assert!(
            result.consumed == block.len() || result.played == allowance || {
                !matches!(reader.verdict(), Verdict::Cut(_))
            }
        );
        rows.extend(buffer.chunks_exact(ROW).take(result.played).map(|row| {
            let row: [u64; ROW] = row.try_into().expect("a row");
            row
        }));
        at += result.consumed;
        if !matches!(reader.verdict(), Verdict::Cut(_)) {
            break;
        }
    }
    let registers = second::bridge::REGISTERS.map(|word| bridge.local_word(word));
    (rows, reader.verdict(), (store, area, registers))
}

type Lent = (Vec<u8>, Vec<u8>, [u32; 7]);

fn same(bytes: &[u8], random: &mut Random, place: &str) -> (usize, Verdict) {
    let (list, verdict) = file(bytes);
    let (expected, slow) = slow_rows(&list);
    for size in [1, 5, 300, bytes.len() + 1] {
        let (rows, found, lent) = cut(bytes, size, random);
        assert_eq!(found, verdict, "{place}, blocks of {size}");
        assert!(rows == expected, "{place}, blocks of {size}: rows");
        assert_eq!(lent.0, slow.store, "{place}: store");
        assert_eq!(lent.1, slow.area[..AREA], "{place}: area");
        assert_eq!(lent.2, slow.bridge.registers(), "{place}: registers");
    }
    (list.len(), verdict)
}

#[test]
fn files_right_and_damaged() {
    let mut faults = [0; 4];
    let (mut ends, mut cuts, mut events) = (0, 0, 0);
    for seed in 0..4000u64 {
        let random = &mut Random::new(seed);
        let mix = [Mix::Lively, Mix::Mixed, Mix::Ticks, Mix::Simple][seed as usize % 4];
        let mut bytes = capture(mix, seed, 200).bytes;
        if seed % 8 < 3 {
            bytes.extend([0xFF; 5]);
        }
        if seed % 8 > 1 {
            let index = random.index(bytes.len());
            bytes[index] ^= 1 << random.below(8);
        }
        if seed % 16 > 12 {
            bytes.truncate(random.index(bytes.len()));
        }
        let (count, verdict) = same(&bytes, random, &format!("seed {seed}"));
        events += count;
        match verdict {
            Verdict::End(_) => ends += 1,
            Verdict::Cut(_) => cuts += 1,
            Verdict::Bad(fault, _) => faults[fault as usize] += 1,
        }
    }
    println!("{events} events; {ends} ends, {cuts} cut, faults {faults:?}");
    assert!(ends > 100 && cuts > 100 && faults.iter().all(|count| *count > 5));
}

#[test]
fn faults_of_the_readings() {
    let random = &mut Random::new(1);
    let example = [0x50, 0, 1, 0x80, 0, 0, 4, 0, 0, 0, 1];
    assert_eq!(same(&example, random, "page").1, Verdict::End(1));
    assert_eq!(same(&example[..4], random, "page").1, Verdict::Cut(1));
    let cases: [(&[u8], Verdict); 12] = [
        (&[0x51, 0, 2], Verdict::Bad(Fault::Length, 0)),
        (&[0x51, 0, 1], Verdict::Cut(0)),
        (&[0x51, 0, 1, 0x80], Verdict::Bad(Fault::Padding, 0)),
        (&[0x60, 1], Verdict::Cut(0)),
        (&[0x60, 0, 0, 0x60, 1, 0], Verdict::Bad(Fault::Length, 3)),
        (&[0x80], Verdict::Bad(Fault::Kind, 0)),
        (&[0x60, 0, 0, 0xF0, 0, 0], Verdict::Bad(Fault::Kind, 3)),
        (&[0, 0, 4, 0, 0, 0, 1], Verdict::Bad(Fault::Count, 0)),
        (&[1, 0, 4, 0, 0, 0, 1], Verdict::Bad(Fault::Padding, 0)),
        (&[0x70, 0, 1, 0xF0], Verdict::Cut(1)),
        (&[0x70, 0, 1, 0xF1], Verdict::Bad(Fault::Padding, 0)),
        (&[], Verdict::Cut(0)),
    ];
    for (bytes, verdict) in cases {
        assert_eq!(same(bytes, random, "case").1, verdict, "{bytes:x?}");
    }
}

/// "ignored in a read": strobes and data of a configuration read.
#[test]
fn config_read_with_strobes() {
    let bytes = [
        0x30, 0, 9, 0, 0, 0x13, 0x07, 0xFF, 0xFF, 0xFF, 0xFF, 0x80, 0x70, 0, 1, 0x80,
    ];
    let random = &mut Random::new(2);
    assert_eq!(same(&bytes, random, "config read").1, Verdict::Cut(2));
}

/// Requests that time out after 65,535 ticks, some of them partly answered; late
/// completions, resting tags, a drop that wakes them.
#[test]
fn timeouts_of_the_whiteboard() {
    use replay::write;
    for seed in 0..6 {
        let random = &mut Random::new(seed);
        let mut bytes = Vec::new();
        let out = &mut bytes;
        write::link(out, true);
        write::config(out, 0x18, Some((15, 0x0002_0100)));
        write::take(out, 8);
        let mut late = Vec::new();
        let mut tag = 0;
        for slot in 0..6 {
            let pieces = 1 + random.below(5);
            let burst = replay::plain::Burst {
                address: 0x1234_0000 + 0x1000 * slot,
                size: 2,
                beats: 32 * pieces,
                kind: 1,
            };
            write::read(out, burst);
            for _ in 0..pieces {
                let first = [0x4A, 0, 0, 16, 0, 0, 0, 128, 0, 0, tag, 0];
                let second = [0x4A, 0, 0, 16, 0, 0, 0, 64, 0, 0, tag, 64];
                if random.often(600) {
                    write::completion(out, &first, &[tag + 1; 64]);
                    late.push((second, tag));
                } else {
                    late.push((first, tag));
                }
                tag += 1;
            }
            let gap = random.below(4);
            (0..gap).for_each(|_| write::tick(out));
        }
        write::config(out, 1 << 20, (seed % 2 == 1).then_some((15, 7)));
        let wait = 65_520 + random.below(12);
        (0..wait).for_each(|_| write::tick(out));
        for _ in 0..40 {
            if !late.is_empty() && random.often(500) {
                let (header, tag) = late.swap_remove(random.index(late.len()));
                write::completion(out, &header, &[tag + 1; 64]);
            }
            write::tick(out);
            write::take(out, random.below(9));
        }
        write::config(out, 0x138, None);
        write::take(out, 8);
        for up in [true, false, true] {
            for page in 0..4 {
                let burst = replay::plain::Burst {
                    address: 0x1234_0000 + 0x1000 * page,
                    size: 5,
                    beats: 60,
                    kind: 1,
                };
                write::read(out, burst);
            }
            write::link(out, up);
        }
        (0..9).for_each(|slot| write::take(out, slot));
        let (list, _) = file(&bytes);
        let (rows, slow) = slow_rows(&list);
        assert!(
            slow.bridge.registers()[2] >> 22 & 1 == 1,
            "a read timed out"
        );
        assert!(slow.bridge.registers()[2] >> 8 & 1 == 1, "the access too");
        assert!(rows.iter().any(|row| row[1] == 7 && row[0] == 0));
        let verdict = same(&bytes, random, &format!("seed {seed}")).1;
        assert_eq!(verdict, Verdict::Cut(list.len() as u64));
    }
}
