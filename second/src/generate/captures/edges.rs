//! Captures at an edge of the format that no seed reaches, or seldom.

use super::end_of;
use crate::burst::Burst;
use crate::capture::{record, Event, LAYOUTS};
use crate::generate::Random;
use crate::settings::AxiAddress;

/// The example records of the readings, by name.
const EXAMPLES: [(&str, &str); 11] = [
    ("end", "00000400000001"),
    ("read", "10000A00000000 12340ABC 4008"),
    ("write", "20000C00000000 12340ABD 0028 5AA5"),
    ("config-read", "300009 010000000000000000"),
    ("config-write", "300009 0000138FFFFFFFFF80"),
    ("completion", "40000C 0A0000000000200400000000"),
    ("link-up", "50000180"),
    ("link-down", "50000100"),
    ("tick", "600000"),
    ("take", "70000180"),
    ("take-15", "700001F0"),
];

/// Others, by what they show.
const OTHERS: [(&str, &str); 21] = [
    ("empty", ""),
    ("of-02", "50000180 00000400000001"),
    ("length-before-padding", "510002"),
    ("cut-before-padding", "510001"),
    ("padding", "51000180"),
    ("kind-alone", "80"),
    ("two-bytes-of-a-tick", "6001"),
    ("long-tick", "600100"),
    ("count", "600000 00000400000002"),
    ("count-0-of-0", "00000400000000"),
    ("count-1-of-0", "00000400000001"),
    ("count-low-byte-first", "600000 00000401000000"),
    ("count-before-nothing", "01000400000001"),
    ("end-cut", "000004000000"),
    ("end-and-more", "00000400000000 600000"),
    ("end-and-a-fault", "00000400000000 FF"),
    ("end-and-an-end", "00000400000000 00000400000000"),
    ("padding-and-kind-behind", "51000180 80"),
    ("link-bit-0", "50000101"),
    ("ignored-bits", "300009 01000007FFFFFFFF80"),
    ("ignored-and-padding", "300009 01000007FFFFFFFFC0"),
];

fn hex(text: &str) -> Vec<u8> {
    let digits: Vec<u8> = text.bytes().filter(|b| *b != b' ').collect();
    let value = |digit: u8| (digit as char).to_digit(16).expect("a digit") as u8;
    digits
        .chunks(2)
        .map(|pair| value(pair[0]) << 4 | value(pair[1]))
        .collect()
}

/// Name and bytes of each.
pub fn edges() -> Vec<(String, Vec<u8>)> {
    let mut list = Vec::new();
    for (name, text) in EXAMPLES {
        let bytes = hex(text);
        list.push((format!("edge-alone-{name}"), bytes.clone()));
        let whole = [bytes, end_of(1)].concat();
        list.push((format!("edge-{name}"), whole.clone()));
        list.push((format!("edge-up-{name}"), [hex("50000180"), whole].concat()));
    }
    for (name, text) in OTHERS {
        list.push((format!("edge-{name}"), hex(text)));
    }
    list.extend((0..=255u8).map(|byte| (format!("edge-byte-{byte:02x}"), vec![byte])));
    list.extend((0..32).map(|bit| {
        let bytes = [hex("000004"), (1u32 << bit).to_be_bytes().to_vec()].concat();
        (format!("edge-count-bit-{bit}"), bytes)
    }));
    list.extend(lengths());
    list.extend(longest());
    list.extend(every_value());
    list.push(("edge-all-ticks".to_string(), ticks(70_000)));
    list
}

/// With the link up, one record for each value of a field or a byte.
fn every_value() -> Vec<(String, Vec<u8>)> {
    let read = |size: u32, kind: u32, beats: u32| {
        let start = AxiAddress(0x1234_0000);
        Event::Read(Burst {
            start,
            size,
            beats,
            kind,
        })
    };
    let bursts = (0..64).map(|i| read(i % 8, i / 8 % 4, [1, 256][i as usize / 32]));
    let beats = (1..=256).map(|beats| read(0, 0, beats));
    let bits = (0..28).map(|bit| Event::ConfigRead { offset: 1 << bit });
    let addresses = (0..64).map(|bit| {
        let burst = Burst {
            start: AxiAddress(0x1234_0000 ^ 1 << bit),
            size: 0,
            beats: 1,
            kind: 1,
        };
        Event::Write {
            burst,
            data: vec![1],
        }
    });
    let firsts = (0..=255u8).map(|first| {
        let mut bytes = vec![0; 12];
        bytes[0] = first;
        Event::Completion(bytes)
    });
    let takes = (0..16).map(|slot| Event::Take { slot });
    vec![
        of_events("bursts", bursts.chain(beats)),
        of_events("offset-bits", bits),
        of_events("address-bits", addresses),
        of_events("first-bytes", firsts),
        of_events("slots", takes),
    ]
}

fn of_events(name: &str, events: impl Iterator<Item = Event>) -> (String, Vec<u8>) {
    let mut bytes = hex("50000180");
    let mut count = 1;
    for event in events {
        bytes.extend(record(&event).expect("it fits"));
        count += 1;
    }
    bytes.extend(end_of(count));
    (format!("edge-every-{name}"), bytes)
}

/// Every kind with every length around its bounds: the first three bytes alone, and
/// with a body of zeros, and an end behind it that is right if the record is sound.
fn lengths() -> Vec<(String, Vec<u8>)> {
    let mut list = Vec::new();
    for kind in 0..16u8 {
        let mut around = vec![0, 1, 255, 256, 257, 65_535];
        if let Some(layout) = LAYOUTS.get(usize::from(kind)) {
            for bound in [layout.shortest(), layout.longest()] {
                around.extend(bound.saturating_sub(2)..=bound + 2);
                // The same low byte under another high one.
                around.push((bound + 256) % 65_536);
            }
        }
        around.sort_unstable();
        around.dedup();
        for length in around {
            let [high, low] = (length as u16).to_be_bytes();
            let front = vec![kind << 4, high, low];
            let body = vec![0; length];
            let name = format!("edge-kind-{kind}-length-{length}");
            let whole = [front.clone(), body, end_of(1)].concat();
            list.push((format!("{name}-front"), front));
            list.push((name, whole));
        }
    }
    list
}

/// The longest records, whole, one byte short, and with a whole page in them.
fn longest() -> Vec<(String, Vec<u8>)> {
    let mut random = Random::new(5);
    let mut list = Vec::new();
    for (name, front) in [
        ("write", "201010 00000000 12340000 AFE8"),
        ("completion", "401010 4A000000 00000000 00000000"),
    ] {
        let mut bytes = hex(front);
        let length = 3 + 4112;
        let rest = random.bytes(length - bytes.len());
        bytes.extend(rest);
        let link = hex("50000180");
        let whole = [link.clone(), bytes.clone(), end_of(2)].concat();
        list.push((format!("edge-longest-{name}"), whole));
        bytes.pop();
        list.push((format!("edge-longest-{name}-cut"), [link, bytes].concat()));
    }
    let page = [
        hex("50000180 20100A 00000000 12340000 AFE8"),
        random.bytes(4096),
        end_of(2),
    ];
    list.push(("edge-page-write".to_string(), page.concat()));
    list
}

/// A count that needs three bytes.
fn ticks(count: u64) -> Vec<u8> {
    let tick = record(&Event::Tick).expect("a tick fits");
    let mut bytes = tick.repeat(count as usize);
    bytes.extend(end_of(count));
    bytes
}
