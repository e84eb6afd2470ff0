//! Records of captures: each byte, what can be held, the writer's numbers, and
//! writing and reading as each other's inverse.

mod packed;

use packed::*;
use second::capture::{end_record, file, next, record, write, write_end};
use second::capture::{Event, Fault, Next, Verdict, LAYOUTS, RECORD_LIMIT};
use second::generate::Random;
use second::header::Written;

const ACCEPTED: u32 = 0;
const SHORT: u32 = 8;
const MALFORMED: u32 = 12;

/// The readings' table, and the same by bits.
fn examples() -> Vec<(Event, &'static str)> {
    vec![
        (
            Event::Read(burst(0x1234_0ABC, 2, 1, 1)),
            "10 000A 0000000012340ABC 4008",
        ),
        (
            write_of(burst(0x1234_0ABD, 0, 2, 1), &[0x5A, 0xA5]),
            "20 000C 0000000012340ABD 0028 5AA5",
        ),
        (
            Event::ConfigRead { offset: 0x10_0000 },
            "30 0009 010000000000000000",
        ),
        (
            config_write(0x138, 15, u32::MAX),
            "30 0009 0000138FFFFFFFFF80",
        ),
        (
            Event::Completion(hex("0A0000000000200400000000")),
            "40 000C 0A0000000000200400000000",
        ),
        (Event::Link { up: true }, "50 0001 80"),
        (Event::Link { up: false }, "50 0001 00"),
        (Event::Tick, "60 0000"),
        (Event::Take { slot: 8 }, "70 0001 80"),
        (Event::Take { slot: 15 }, "70 0001 F0"),
        // Every field at its end.
        (
            Event::Read(burst(u64::MAX, 7, 256, 3)),
            "10 000A FFFFFFFFFFFFFFFF FFF8",
        ),
        (
            Event::Read(burst(0, 0, 1, 0)),
            "10 000A 0000000000000000 0000",
        ),
        (config_write(0xFFF_FFFF, 0, 0), "30 0009 FFFFFFF80000000000"),
        (config_write(0, 1, 0), "30 0009 000000088000000000"),
        (config_write(0, 8, 0), "30 0009 0000000C0000000000"),
        // The data word stands high byte first, one bit further on.
        (
            config_write(0, 0, 0x1122_3344),
            "30 0009 00000008089119A200",
        ),
        (config_write(0, 0, 1), "30 0009 000000080000000080"),
    ]
}

#[test]
fn every_example_both_ways() {
    for (event, text) in examples() {
        let bytes = hex(text);
        assert_eq!(record(&event), Some(bytes.clone()), "{event:?}");
        let size = bytes.len();
        assert_eq!(next(0, &bytes), Next::Event { event, size }, "{text}");
    }
    assert_eq!(end_record(1), Some(hex("00000400000001")));
    assert_eq!(end_record(0x0102_0304), Some(hex("00000401020304")));
    assert_eq!(next(1, &hex("00000400000001")), Next::End { size: 7 });
}

/// Kinds and lengths as 02 says them.
#[test]
fn the_table() {
    let bounds: Vec<_> = LAYOUTS
        .iter()
        .map(|l| (l.kind, l.name, l.shortest(), l.longest(), l.padding()))
        .collect();
    let expected = [
        (0, "end", 4, 4, 0),
        (1, "read", 10, 10, 3),
        (2, "write", 10, 4112, 3),
        (3, "config", 9, 9, 7),
        (4, "completion", 12, 4112, 0),
        (5, "link", 1, 1, 7),
        (6, "tick", 0, 0, 0),
        (7, "take", 1, 1, 4),
    ];
    assert_eq!(bounds, expected);
    assert_eq!(RECORD_LIMIT, 4115);
}

/// What the layout cannot hold, one step past each limit, and what it just can.
fn limits() -> Vec<(Event, bool)> {
    let read = |z, beats, kind| Event::Read(burst(0, z, beats, kind));
    let data = |count| write_of(burst(0, 0, 1, 1), &vec![0; count]);
    let completion = |count| Event::Completion(vec![0; count]);
    vec![
        (read(7, 1, 1), true),
        (read(8, 1, 1), false),
        (read(u32::MAX, 1, 1), false),
        (read(0, 0, 1), false),
        (read(0, 256, 1), true),
        (read(0, 257, 1), false),
        (read(0, u32::MAX, 1), false),
        (read(0, 1, 3), true),
        (read(0, 1, 4), false),
        (read(0, 1, 5), false),
        (write_of(burst(0, 8, 1, 1), &[]), false),
        (write_of(burst(0, 0, 0, 1), &[]), false),
        (write_of(burst(0, 0, 257, 1), &[]), false),
        (write_of(burst(0, 0, 1, 4), &[]), false),
        (data(0), true),
        (data(4102), true),
        (data(4103), false),
        (data(70_000), false),
        (
            Event::ConfigRead {
                offset: (1 << 28) - 1,
            },
            true,
        ),
        (Event::ConfigRead { offset: 1 << 28 }, false),
        (Event::ConfigRead { offset: u64::MAX }, false),
        (config_write(1 << 28, 0, 0), false),
        (config_write(0, 15, 0), true),
        (config_write(0, 16, 0), false),
        (config_write(0, u32::MAX, 0), false),
        (completion(11), false),
        (completion(0), false),
        (completion(12), true),
        (completion(4112), true),
        (completion(4113), false),
        (completion(65_536 + 12), false),
        (Event::Take { slot: 15 }, true),
        (Event::Take { slot: 16 }, false),
        (Event::Take { slot: u32::MAX }, false),
        (Event::Message(vec![0; 16]), false),
    ]
}

#[test]
fn twelve_exactly() {
    for (event, held) in limits() {
        let mut area = vec![0xEE; 5000];
        let written = write(&event, &mut area);
        match held {
            true => assert_eq!(written.number, ACCEPTED, "{event:?}"),
            false => refused(written, MALFORMED, &area),
        }
    }
    let mut area = [0xEE; 8];
    assert_eq!(write_end((1 << 32) - 1, &mut area).number, ACCEPTED);
    for count in [1 << 32, u64::MAX] {
        let mut area = [0xEE; 8];
        refused(write_end(count, &mut area), MALFORMED, &area);
    }
}

fn refused(written: Written, number: u32, area: &[u8]) {
    assert_eq!(written, Written { number, length: 0 });
    assert!(
        area.iter().all(|byte| *byte == 0xEE),
        "the area is untouched"
    );
}

/// "12 ..., then 8": also where there is no area at all.
#[test]
fn twelve_before_eight() {
    for (event, held) in limits() {
        for length in [0, 1, 2] {
            let mut area = vec![0xEE; length];
            let number = if held { SHORT } else { MALFORMED };
            refused(write(&event, &mut area), number, &area);
        }
    }
    refused(write_end(1 << 32, &mut []), MALFORMED, &[]);
    refused(write_end(0, &mut []), SHORT, &[]);
}

/// Shorter than this record, not than some other length.
#[test]
fn eight_exactly_and_a_prefix() {
    let longest = write_of(burst(0, 0, 1, 1), &[7; 4102]);
    let all = examples().into_iter().map(|(event, _)| event);
    for event in all.chain([longest]) {
        let bytes = record(&event).expect("it fits");
        let mut area = vec![0xEE; bytes.len() - 1];
        refused(write(&event, &mut area), SHORT, &area);
        for more in [0, 1, 100] {
            let mut area = vec![0xEE; bytes.len() + more];
            let length = bytes.len() as u32;
            assert_eq!(write(&event, &mut area), Written { number: 0, length });
            assert_eq!(&area[..bytes.len()], bytes);
            assert!(area[bytes.len()..].iter().all(|byte| *byte == 0xEE));
        }
    }
    let mut area = [0xEE; 6];
    refused(write_end(0, &mut area), SHORT, &area);
    let mut area = [0xEE; 9];
    let length = 7;
    assert_eq!(write_end(0, &mut area), Written { number: 0, length });
    assert_eq!(area, [0, 0, 4, 0, 0, 0, 0, 0xEE, 0xEE]);
}

/// Whatever follows, and however many events were before.
#[test]
fn write_then_read() {
    let mut random = Random::new(1);
    for _ in 0..20_000 {
        let event = any_event(&mut random);
        let mut bytes = record(&event).expect("it fits");
        let size = bytes.len();
        let count = random.between(0, 9) as usize;
        bytes.extend(random.bytes(count));
        assert_eq!(next(random.long(), &bytes), Next::Event { event, size });
    }
}

#[test]
fn write_then_read_ends() {
    let mut random = Random::new(2);
    for _ in 0..2000 {
        let count = u64::from(random.word()) >> random.below(32);
        let mut bytes = end_record(count).expect("it fits");
        bytes.extend(random.bytes(3));
        assert_eq!(next(count, &bytes), Next::End { size: 7 });
        let fault = Fault::Count;
        let bad = Next::Bad { fault, size: 7 };
        for other in [count + 1, count ^ 1, count + (1 << 32), u64::MAX] {
            assert_eq!(next(other, &bytes), bad);
        }
    }
}

/// A record that reads as an event is the one that is written of it, but for the
/// 36 bits that a configuration read ignores.
#[test]
fn read_then_write() {
    let mut random = Random::new(3);
    let mut seen = [0; 8];
    for _ in 0..200_000 {
        let bytes = any_record(&mut random);
        let Next::Event { event, size } = next(0, &bytes) else {
            continue;
        };
        seen[usize::from(bytes[0] >> 4)] += 1;
        let written = record(&event).expect("what was read fits");
        let mut read = bytes[..size].to_vec();
        if matches!(event, Event::ConfigRead { .. }) {
            read[6] &= 0xF0;
            read[7..12].fill(0);
        }
        assert_eq!(written, read);
    }
    assert!(seen[1..].iter().all(|count| *count > 500), "{seen:?}");
}

/// Each of the 36 ignored bits alone, and the seven behind them, which count.
#[test]
fn ignored_bits_of_a_configuration_read() {
    let plain = hex("30 0009 0FEDCBA00000000000");
    let event = Event::ConfigRead { offset: 0xFED_CBA };
    for bit in 29..72 {
        let mut bytes = plain.clone();
        bytes[3 + bit / 8] |= 0x80 >> (bit % 8);
        let expected = match bit < 65 {
            true => Next::Event {
                event: event.clone(),
                size: 12,
            },
            false => Next::Bad {
                fault: Fault::Padding,
                size: 12,
            },
        };
        assert_eq!(next(0, &bytes), expected, "bit {bit}");
    }
    assert_eq!(record(&event), Some(plain));
}

/// Files of written records read as the events, with a right end and without.
#[test]
fn whole_files() {
    let mut random = Random::new(4);
    for count in [0, 1, 2, 17, 300] {
        let events: Vec<Event> = (0..count).map(|_| any_event(&mut random)).collect();
        let mut bytes: Vec<u8> = events.iter().flat_map(|e| record(e).unwrap()).collect();
        let count = count as u64;
        assert_eq!(file(&bytes), (events.clone(), Verdict::Cut(count)));
        let at = bytes.len() as u64;
        let wrong = [bytes.clone(), end_record(count + 1).unwrap()].concat();
        let bad = Verdict::Bad(Fault::Count, at);
        assert_eq!(file(&wrong), (events.clone(), bad));
        bytes.extend(end_record(count).unwrap());
        assert_eq!(file(&bytes), (events.clone(), Verdict::End(count)));
        bytes.extend(random.bytes(30));
        assert_eq!(file(&bytes), (events, Verdict::End(count)));
    }
}
