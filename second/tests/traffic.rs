//! The traffic format: round trips, faults, and a log written out by hand.

use second::generate::{damage, traffic, Generator, Random};
use second::run::own_log;
use second::settings::Window;
use second::shrink::{difference, Shrinker};
use second::traffic::{adler, Event, Machine, Making, Traffic, HEADER_BYTES, RECORD_BYTES};
use second::traffic::{REPEATS_LIMIT, REPEAT_LIMIT};

/// The example bridge with T = 2, store 32,768, first tick 4,294,967,295.
fn header() -> Vec<u8> {
    let mut bytes = b"APBT".to_vec();
    let words = |bytes: &mut Vec<u8>, list: &[u32]| {
        list.iter().for_each(|w| bytes.extend(w.to_be_bytes()));
    };
    words(&mut bytes, &[1, 1]);
    words(&mut bytes, &[0, 0x1234_0000, 0, 0x1_0000, 0, 0x5671_0000]);
    words(&mut bytes, &[0; 30]);
    words(&mut bytes, &[8, 128, 128, 2, 0, u32::MAX, 32_768]);
    assert_eq!(bytes.len(), HEADER_BYTES);
    bytes
}

fn hex(text: &str) -> Vec<u8> {
    let digits: Vec<char> = text.chars().filter(|c| !c.is_whitespace()).collect();
    let byte = |pair: &[char]| u8::from_str_radix(&pair.iter().collect::<String>(), 16).unwrap();
    digits.chunks(2).map(byte).collect()
}

/// The example of docs/TRAFFIC.md.
fn example() -> Vec<u8> {
    let mut bytes = header();
    bytes.extend(hex("06 00008000 01")); // link up
    bytes.extend(hex(
        "01 00001200 0000000012340abc 00000002 00000001 00000001",
    ));
    bytes.extend(hex(
        "04 00008000 00000010 4a000001 00000004 0000003c 11223344",
    ));
    bytes.extend(hex("07 00008000 00000000")); // look
    bytes.extend(hex("08 00008000 00000000")); // release
    bytes.extend(hex("05 00008000 00000003")); // three ticks
    bytes.extend(hex("0a 0000000c 04000001 0000000f 01000000")); // request reader
    bytes.extend(hex("ff 00000007"));
    bytes
}

/// The same as a list, with the count and the seventh record given.
fn as_list(count: u8, seventh: &[u8; RECORD_BYTES]) -> Vec<u8> {
    let mut bytes = example();
    bytes[7] = 2;
    bytes[11] = count;
    bytes.splice(HEADER_BYTES..HEADER_BYTES, *seventh);
    bytes
}

const EXAMPLE_LOG: &str = include_str!("example.log");

#[test]
fn example_log() {
    assert_eq!(own_log(&example()), EXAMPLE_LOG);
}

/// Neither the way of making nor the seventh record shows in the log.
#[test]
fn example_log_of_a_list() {
    for seventh in [[0; RECORD_BYTES], [0xFF; RECORD_BYTES]] {
        assert_eq!(own_log(&as_list(1, &seventh)), EXAMPLE_LOG);
    }
    let list = |count: u8| own_log(&as_list(count, &[0; RECORD_BYTES]));
    for count in [0, 7, 8, 255] {
        assert!(list(count).starts_with("new 1 regs"), "{count} records");
        assert!(list(count).ends_with("end 7\n"), "{count} records");
    }
}

#[test]
fn all_versions_give_one_log() {
    for seed in 0..60 {
        let mut made = traffic(seed, 100);
        made.header.making = Making::Arrays;
        let arrays = own_log(&made.encode());
        made.header.making = Making::List(Window::default());
        assert_eq!(own_log(&made.encode()), arrays, "seed {seed}");
        made.header.making = Making::ListAndSession(Window::default(), 0);
        assert_eq!(own_log(&made.encode()), arrays, "seed {seed}");
    }
}

#[test]
fn checksum() {
    assert_eq!(adler(b""), 1);
    assert_eq!(adler(b"123456789"), 0x091E_01DE);
    let plain = |bytes: &[u8]| {
        let (mut a, mut b) = (1, 0);
        for byte in bytes {
            a = (a + u32::from(*byte)) % 65_521;
            b = (b + a) % 65_521;
        }
        b << 16 | a
    };
    let most = vec![255; 40_960];
    assert_eq!(adler(&most), plain(&most));
    for length in [1, 63, 64, 65, 127, 4608, 32_768, 40_959] {
        let bytes: Vec<u8> = (0..length).map(|i: u32| (i * 7 % 253) as u8).collect();
        assert_eq!(adler(&bytes), plain(&bytes));
    }
}

#[test]
fn files_round_trip() {
    for seed in 0..40 {
        let made = traffic(seed, 200);
        assert_eq!(Traffic::decode(&made.encode()), Ok(made));
    }
}

fn last_line(bytes: &[u8]) -> String {
    own_log(bytes).lines().last().unwrap_or("").to_string()
}

fn last_fault(bytes: &[u8]) -> Option<(&'static str, String, usize)> {
    let fault = Traffic::decode(bytes).err()?;
    Some((fault.what, fault.part, fault.at))
}

#[test]
fn every_cut_is_told_with_its_place() {
    let bytes = example();
    let starts = [184, 190, 215, 240, 249, 258, 267, 284];
    for length in 0..bytes.len() {
        let expected = match starts.iter().rposition(|s| length >= *s) {
            None => "cut header at 0".to_string(),
            // The end record's kind byte is there.
            Some(7) if length > 284 => "cut end at 284".to_string(),
            Some(index) => format!("cut event {index} at {}", starts[index]),
        };
        assert_eq!(last_line(&bytes[..length]), expected, "length {length}");
    }
}

#[test]
fn every_cut_of_a_list_is_told_with_its_place() {
    let bytes = as_list(1, &[0; RECORD_BYTES]);
    let first = HEADER_BYTES + RECORD_BYTES;
    for length in 0..first {
        assert_eq!(last_line(&bytes[..length]), "cut header at 0");
    }
    for length in first..first + 6 {
        assert_eq!(last_line(&bytes[..length]), "cut event 0 at 208");
    }
    assert_eq!(last_line(&bytes[..first + 6]), "cut event 1 at 214");
    // The first 184 bytes are judged before the seventh record is looked for.
    let mut store = bytes[..HEADER_BYTES].to_vec();
    store[181] = 1;
    assert_eq!(last_line(&store), "damaged header at 0");
}

#[test]
fn damage_is_told_with_its_place() {
    let cases: [(usize, u8, &str); 16] = [
        (0, 0, "damaged header at 0"),
        (7, 0, "damaged header at 0"),
        (7, 4, "damaged header at 0"),
        (181, 1, "damaged header at 0"),
        (184, 0, "damaged event 0 at 184"),
        (184, 13, "damaged event 0 at 184"), // a message of 32,768 bytes
        (184, 14, "damaged event 0 at 184"),
        (184, 254, "damaged event 0 at 184"),
        (188, 1, "damaged event 0 at 184"), // a store longer than the file's
        (189, 2, "damaged event 0 at 184"), // a flag
        (192, 1, "damaged event 1 at 190"), // an area above 8,192
        (221, 1, "damaged event 2 at 215"), // 65,552 bytes
        (265, 0x10, "damaged event 5 at 258"), // 4,099 ticks is no damage
        (264, 2, "damaged event 5 at 258"), // 131,075 ticks
        (266, 0, "damaged event 5 at 258"), // no tick
        (288, 8, "damaged end at 284"),
    ];
    for (at, byte, expected) in cases {
        let mut bytes = example();
        bytes[at] = byte;
        match at {
            265 => assert_eq!(last_line(&bytes), "end 7"),
            _ => assert_eq!(last_line(&bytes), expected, "byte {at}"),
        }
    }
    let longer = [&example()[..], &[0]].concat();
    assert_eq!(last_line(&longer), "damaged end at 284");
}

/// The example's header and these ticks; each is refused, which is quick, but
/// counts.
fn ticks(repeats: &[u32]) -> Vec<u8> {
    let header = Traffic::decode(&example()).expect("a right file").header;
    let tick = |repeat: &u32| Event::Tick {
        store: 0,
        repeat: *repeat,
    };
    let events = repeats.iter().map(tick).collect();
    Traffic { header, events }.encode()
}

#[test]
fn the_repeats_of_a_file_have_a_bound() {
    let mut repeats = vec![REPEAT_LIMIT; (REPEATS_LIMIT / REPEAT_LIMIT) as usize];
    assert_eq!(repeats.iter().sum::<u32>(), REPEATS_LIMIT);
    assert_eq!(last_line(&ticks(&repeats)), "end 512");
    // Of the record that passes the bound not even the first tick is played.
    repeats.push(1);
    let log = own_log(&ticks(&repeats));
    assert!(log.ends_with("\ndamaged event 512 at 4792\n"));
    assert_eq!(log.lines().count(), 1 + 512 + 1);
}

#[test]
fn the_last_repeats_may_fill_the_bound_but_not_pass_it() {
    let most = vec![REPEAT_LIMIT; (REPEATS_LIMIT / REPEAT_LIMIT) as usize - 1];
    let fault = |last: &[u32]| {
        let bytes = ticks(&[&most[..], last].concat());
        last_fault(&bytes).map(|(what, _, at)| (what, at))
    };
    assert_eq!(fault(&[REPEAT_LIMIT - 1, 1]), None);
    assert_eq!(fault(&[REPEAT_LIMIT - 1, 2]), Some(("damaged", 4792)));
    assert_eq!(fault(&[1, REPEAT_LIMIT]), Some(("damaged", 4792)));
    assert_eq!(fault(&[1, u32::MAX]), Some(("damaged", 4792)));
    // A record that is cut is not judged.
    let bytes = ticks(&[&most[..], &[1, REPEAT_LIMIT]].concat());
    assert_eq!(
        last_fault(&bytes[..4792 + 8]),
        Some(("cut", "event 512".to_string(), 4792))
    );
}

#[test]
fn generated_ticks_keep_the_bound() {
    let header = Traffic::decode(&example()).expect("a right file").header;
    let mut generator = Generator::new(Machine::new(&header), Random::new(0));
    // 1,117 records leave 88,864 ticks, fewer than one record may have.
    for _ in 0..1117 + 88_864 + 10 {
        generator.ticks(60_000);
    }
    let events = generator.events;
    assert_eq!(events.len(), 1117 + 88_864);
    let made = Traffic { header, events };
    assert_eq!(Traffic::decode(&made.encode()), Ok(made));
}

#[test]
fn settings_are_never_a_fault() {
    let mut bytes = example();
    bytes[11] = 9; // the count
    let log = own_log(&bytes);
    assert!(log.starts_with("new 1 regs"));
    // Played on the example bridge, whose T is 65,535.
    assert!(log.ends_with("end 7\n"));
}

#[test]
fn damaged_files_never_stop_the_player_itself() {
    for seed in 0..300 {
        let bytes = damage(&traffic(seed, 60).encode(), seed);
        assert!(!own_log(&bytes).is_empty());
    }
}

#[test]
fn shrinking_keeps_the_difference_and_little_else() {
    let made = traffic(3, 300);
    // A player that gets every release of slot 2 wrong.
    let wrong = |t: &Traffic| {
        let release = |e: &Event| matches!(e, Event::Release { slot: 2, .. });
        t.events.iter().any(release)
    };
    assert!(wrong(&made));
    let small = Shrinker::new(wrong, 3000).shrink(&made);
    assert_eq!(small.events.len(), 1);
}

#[test]
fn first_difference() {
    assert_eq!(difference("a\nb\n", "a\nb\n"), None);
    let found = difference("a\nb\nc\n", "a\nx\nc\n").expect("a difference");
    assert_eq!((found.line, found.event()), (1, Some(0)));
    let cut = difference("a\nb\n", "a\n").expect("a difference");
    assert_eq!(cut.one, "b");
}
