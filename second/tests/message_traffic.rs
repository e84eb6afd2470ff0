//! Error messages in traffic files: the record, its faults, and a pinned log.

use second::generate::{edges, traffic};
use second::run::own_log;
use second::traffic::{Event, Traffic};

/// The example bridge, store 32,768, first tick value 0.
fn header() -> String {
    let windows = "0000000012340000 0000000000010000 0000000056710000".to_string();
    let rest = "00000008 00000080 00000080 0000ffff 00000000 00000000 00008000";
    format!(
        "41504254 00000001 00000001 {windows} {} {rest} ",
        "00".repeat(120)
    )
}

fn hex(text: &str) -> Vec<u8> {
    let digits: Vec<char> = text.chars().filter(|c| !c.is_whitespace()).collect();
    let byte = |pair: &[char]| u8::from_str_radix(&pair.iter().collect::<String>(), 16).unwrap();
    digits.chunks(2).map(byte).collect()
}

/// One record a line.
const RECORDS: &str = include_str!("messages.hex");
const LOG: &str = include_str!("messages.log");

fn example() -> Vec<u8> {
    hex(&format!("{}{RECORDS}", header()))
}

#[test]
fn pinned_log() {
    assert_eq!(own_log(&example()), LOG);
}

/// The suffix stands exactly where 148 and 154 do not both show 0.
#[test]
fn suffix_only_where_something_shows() {
    for seed in 0..60 {
        let log = own_log(&traffic(seed, 400).encode());
        for line in log.lines() {
            let words: Vec<&str> = line.split(' ').collect();
            if let Some(at) = words.iter().position(|w| *w == "errors") {
                assert_eq!(words.len(), at + 3, "{line}");
                assert_ne!(words[at + 1..], ["00000000", "00000000"], "{line}");
                assert_eq!(words[at - 2], "store");
            }
        }
    }
    assert!(own_log(&example()).contains(" errors 00010000 00040100\n"));
}

fn last_line(bytes: &[u8]) -> String {
    own_log(bytes).lines().last().unwrap_or("").to_string()
}

/// The file up to its second message record, which lies at 211.
const SECOND: usize = 184 + 6 + 21;

#[test]
fn every_cut_of_a_message_is_told_with_its_place() {
    let bytes = example();
    assert_eq!(bytes[SECOND], 13);
    for length in SECOND..SECOND + 21 {
        let expected = format!("cut event 2 at {SECOND}");
        assert_eq!(last_line(&bytes[..length]), expected, "length {length}");
    }
    let after = SECOND + 21;
    assert_eq!(
        last_line(&bytes[..after]),
        format!("cut event 3 at {after}")
    );
}

#[test]
fn lengths_of_a_message_and_kinds_beside_it() {
    let with = |kind: u8, length: u32, bytes: usize| {
        let mut file = example();
        file.truncate(SECOND);
        file.push(kind);
        file.extend(length.to_be_bytes());
        file.extend(vec![0; bytes]);
        file.extend([255, 0, 0, 0, 3]);
        last_line(&file)
    };
    assert_eq!(with(13, 0, 0), "end 3");
    assert_eq!(with(13, 8192, 8192), "end 3");
    let damaged = format!("damaged event 2 at {SECOND}");
    assert_eq!(with(13, 8193, 8193), damaged);
    assert_eq!(with(13, u32::MAX, 0), damaged);
    for kind in [0, 14, 15, 16, 45, 128, 254] {
        assert_eq!(with(kind, 16, 16), damaged, "kind {kind}");
    }
    // A wrong length is damage even where the file ends.
    let mut short = example();
    short.truncate(SECOND);
    short.extend([13, 0, 0, 0x20, 1]);
    assert_eq!(last_line(&short), damaged);
}

#[test]
fn messages_round_trip() {
    let made = Traffic::decode(&example()).expect("a right file");
    assert_eq!(made.encode(), example());
    let lengths = [0, 1, 15, 16, 17, 8192];
    let mut long = made.clone();
    long.events = lengths
        .map(|length| Event::Message {
            bytes: vec![7; length],
        })
        .to_vec();
    assert_eq!(Traffic::decode(&long.encode()), Ok(long));
}

#[test]
fn files_at_the_edges() {
    let ends: Vec<(&str, String)> = edges()
        .iter()
        .skip(2)
        .map(|(name, bytes)| (*name, last_line(bytes)))
        .collect();
    let place = |name: &str| {
        let found = ends.iter().find(|(n, _)| *n == name);
        let line = found.expect("an edge").1.as_str();
        line.split(" at ").next().unwrap_or("").to_string()
    };
    assert_eq!(place("edge-message-longest"), "end 2");
    assert_eq!(place("edge-message-too-long"), "damaged event 1");
    assert_eq!(place("edge-message-empty"), "end 2");
    assert_eq!(place("edge-message-kind-alone"), "cut event 3");
    assert_eq!(place("edge-message-length-cut"), "cut event 3");
    assert_eq!(place("edge-message-no-bytes"), "cut event 3");
    assert_eq!(place("edge-message-cut"), "cut event 3");
    assert_eq!(place("edge-message-no-end"), "cut event 4");
    assert_eq!(place("edge-kind-14"), "damaged event 3");
    assert_eq!(place("edge-messages"), "end 4");
    assert_eq!(place("edge-queue-turns"), "end 396");
}
