//! Session numbers in traffic files: the header's third version, its faults, and
//! a pinned log.

use second::generate::{session_edges, traffic};
use second::run::own_log;
use second::settings::Window;
use second::shrink::Shrinker;
use second::traffic::{Event, Making, Traffic};

/// The example bridge, store 32,768, first tick value 0, window 6 zero.
fn header(version: u8, first_session: &str) -> String {
    let windows = "0000000012340000 0000000000010000 0000000056710000".to_string();
    let rest = "00000008 00000080 00000080 0000ffff 00000000 00000000 00008000";
    format!(
        "41504254 000000{version:02x} 00000001 {windows} {} {rest} {} {first_session}",
        "00".repeat(120),
        "00".repeat(24)
    )
}

fn hex(text: &str) -> Vec<u8> {
    let digits: Vec<char> = text.chars().filter(|c| !c.is_whitespace()).collect();
    let byte = |pair: &[char]| u8::from_str_radix(&pair.iter().collect::<String>(), 16).unwrap();
    digits.chunks(2).map(byte).collect()
}

/// One record a line.
const RECORDS: &str = include_str!("sessions.hex");
const LOG: &str = include_str!("sessions.log");
/// The header's length.
const FIRST: usize = 212;

fn example() -> Vec<u8> {
    hex(&format!("{}{RECORDS}", header(3, "ffffffff")))
}

fn last_line(bytes: &[u8]) -> String {
    own_log(bytes).lines().last().unwrap_or("").to_string()
}

#[test]
fn pinned_log() {
    assert_eq!(own_log(&example()), LOG);
}

#[test]
fn every_cut_of_the_header_is_told() {
    let bytes = example();
    for length in 0..FIRST {
        assert_eq!(last_line(&bytes[..length]), "cut header at 0", "{length}");
    }
    assert_eq!(last_line(&bytes[..FIRST]), "cut event 0 at 212");
    assert_eq!(last_line(&bytes[..FIRST + 21]), "cut event 0 at 212");
    assert_eq!(last_line(&bytes[..FIRST + 22]), "cut event 1 at 234");
    assert_eq!(last_line(&bytes), "end 16");
}

#[test]
fn versions_beside_it() {
    for version in [0, 4, 5, 19, 131, 255] {
        let mut bytes = example();
        bytes[7] = version;
        assert_eq!(last_line(&bytes), "damaged header at 0", "{version}");
        // Judged on the first 184 bytes, which must be there.
        assert_eq!(last_line(&bytes[..184]), "damaged header at 0");
        assert_eq!(last_line(&bytes[..183]), "cut header at 0");
    }
    for byte in 4..7 {
        let mut bytes = example();
        bytes[byte] = 1;
        assert_eq!(last_line(&bytes), "damaged header at 0");
    }
    let mut store = example();
    store[181] = 1;
    assert_eq!(last_line(&store[..184]), "damaged header at 0");
}

/// Version 2 with the same records has numbers from 1 on.
#[test]
fn without_a_first_value_it_is_0() {
    let list = hex(&format!("{}{RECORDS}", header(2, "")));
    let zero = hex(&format!("{}{RECORDS}", header(3, "00000000")));
    assert_eq!(own_log(&list), own_log(&zero));
    let sessions: Vec<String> = own_log(&list)
        .lines()
        .filter(|line| line.contains("release"))
        .map(|line| session(line).map_or("-".to_string(), |s| s.to_string()))
        .collect();
    assert_eq!(sessions, ["-", "-", "2", "2", "1"]);
}

fn session(line: &str) -> Option<u32> {
    let mut words = line.split(' ').skip_while(|word| *word != "session");
    words.nth(1).map(|word| word.parse().expect("a number"))
}

/// The line with this added to its session number, if it is an accepted
/// release's.
fn shifted(line: &str, by: u32) -> String {
    let words: Vec<&str> = line.split(' ').collect();
    if words.get(1..3) != Some(&["release", "0"]) {
        assert_eq!(session(line), None, "{line}");
        return line.to_string();
    }
    let sum = session(line).unwrap_or(0).wrapping_add(by);
    let rest = words.iter().position(|word| *word == "regs");
    let rest = words[rest.expect("a tail")..].join(" ");
    let text = match sum {
        0 => String::new(),
        _ => format!("session {sum} "),
    };
    format!("{} {text}{rest}", words[..10].join(" "))
}

/// A player without access to its counter adds the first value itself.
#[test]
fn a_first_value_shifts_every_number() {
    for seed in 0..40 {
        let mut made = traffic(seed, 300);
        made.header.making = Making::List(Window::default());
        let plain = own_log(&made.encode());
        for first in [0, 1, 77, u32::MAX, u32::MAX - 2, 0x8000_0000] {
            made.header.making = Making::ListAndSession(Window::default(), first);
            let expected: Vec<String> = plain.lines().map(|line| shifted(line, first)).collect();
            let log = own_log(&made.encode());
            assert_eq!(log.lines().collect::<Vec<_>>(), expected, "seed {seed}");
        }
    }
}

/// Also where `new` gave 1: the first value is the header's, the settings not.
#[test]
fn first_value_of_a_refused_bridge() {
    let mut bytes = example();
    bytes[11] = 0; // the count
    let log = own_log(&bytes);
    assert_eq!(log.replacen("new 1", "new 0", 1), LOG);
}

#[test]
fn files_round_trip() {
    let made = Traffic::decode(&example()).expect("a right file");
    assert_eq!(made.encode(), example());
    assert_eq!(made.header.first_session(), Some(u32::MAX));
    let versions: Vec<u32> = (0..60).map(|s| traffic(s, 0).header.version()).collect();
    for version in 1..4 {
        let count = versions.iter().filter(|v| **v == version).count();
        assert!(count > 10, "version {version} came {count} times");
    }
}

#[test]
fn files_at_the_edges() {
    let ends: Vec<(&str, String)> = session_edges()
        .iter()
        .map(|(name, bytes)| (*name, last_line(bytes)))
        .collect();
    let expected = [
        ("edge-session-no-list", "cut header at 0"),
        ("edge-session-none", "cut header at 0"),
        ("edge-session-cut", "cut header at 0"),
        ("edge-session-alone", "cut event 0 at 212"),
        ("edge-version-0", "damaged header at 0"),
        ("edge-version-4", "damaged header at 0"),
        ("edge-version-of-17-bits", "damaged header at 0"),
        ("edge-version-4-cut", "cut header at 0"),
        ("edge-all-words", "end 6143"),
        ("edge-nine-lives", "end 45"),
        ("edge-nine-lives-from-0", "end 45"),
        ("edge-nine-lives-from-bit-31", "end 45"),
    ];
    assert_eq!(ends, expected.map(|(name, end)| (name, end.to_string())));
    let found = session_edges().pop().expect("the last");
    let numbers: Vec<u32> = own_log(&found.1).lines().filter_map(session).collect();
    let right: Vec<u32> = (0..9).map(|i| 0x7FFF_FFFD + i).collect();
    assert_eq!(numbers, right);
}

/// A difference that needs no first value loses it, one that does keeps it.
#[test]
fn shrinking_the_first_value() {
    let made = Traffic::decode(&example()).expect("a right file");
    let any = |t: &Traffic| t.events.iter().any(|e| matches!(e, Event::Read { .. }));
    let small = Shrinker::new(any, 1000).shrink(&made);
    assert_eq!(small.header.version(), 2);
    let last = |t: &Traffic| own_log(&t.encode()).contains("session 4294967295");
    let small = Shrinker::new(last, 1000).shrink(&made);
    assert_eq!(small.header.first_session(), Some(u32::MAX));
    assert_eq!(small.events.len(), 2);
}
