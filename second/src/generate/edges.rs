//! Files at an edge of the format that no seed reaches, or seldom.

use super::messages::{sound, CODES};
use super::{traffic, Random};
use crate::bridge::{Access, AREA_BYTES, CONFIG_SLOT, QUEUE_DEPTH, WORD_ERRORS};
use crate::traffic::{Event, Traffic, DATA_LIMIT, REPEATS_LIMIT, REPEAT_LIMIT};
use crate::traffic::{END_BYTES, KIND_MESSAGE};

/// As many ticks as a file may ask for, and one record more, which is damaged;
/// the record of a message at its longest, too long, cut, and with the kind
/// after it, which does not exist; the error queue turned through all its places.
pub fn edges() -> Vec<(&'static str, Vec<u8>)> {
    let most = (REPEATS_LIMIT / REPEAT_LIMIT) as usize;
    let right = messages(CODES.map(|code| sound(code, &mut Random::new(0))).to_vec());
    // The last record has 21 bytes: kind, length, message.
    let last = right.len() - END_BYTES - 21;
    let mut unknown = right.clone();
    assert_eq!(unknown[last], KIND_MESSAGE);
    unknown[last] = KIND_MESSAGE + 1;
    vec![
        ("edge-most-ticks", ticks(most)),
        ("edge-ticks-over", ticks(most + 1)),
        ("edge-message-longest", zeros(DATA_LIMIT)),
        ("edge-message-too-long", zeros(DATA_LIMIT + 1)),
        ("edge-message-empty", zeros(0)),
        ("edge-message-kind-alone", right[..last + 1].to_vec()),
        ("edge-message-length-cut", right[..last + 4].to_vec()),
        ("edge-message-no-bytes", right[..last + 5].to_vec()),
        ("edge-message-cut", right[..last + 20].to_vec()),
        ("edge-message-no-end", right[..last + 21].to_vec()),
        ("edge-kind-14", unknown),
        ("edge-messages", right),
        ("edge-queue-turns", turns()),
    ]
}

fn ticks(records: usize) -> Vec<u8> {
    let header = traffic(0, 0).header;
    let tick = Event::Tick {
        store: header.store,
        repeat: REPEAT_LIMIT,
    };
    Traffic {
        header,
        events: vec![tick; records],
    }
    .encode()
}

/// The link goes up, then these messages come.
fn messages(list: Vec<Vec<u8>>) -> Vec<u8> {
    let header = traffic(0, 0).header;
    let store = header.store;
    let mut events = vec![Event::Link { store, up: true }];
    events.extend(list.into_iter().map(|bytes| Event::Message { bytes }));
    Traffic { header, events }.encode()
}

fn zeros(length: u32) -> Vec<u8> {
    messages(vec![vec![0; length as usize]])
}

/// Wherever a player keeps the oldest entry, it is there with the queue full and
/// with the queue empty.
fn turns() -> Vec<u8> {
    let header = traffic(0, 0).header;
    let store = header.store;
    let mut random = Random::new(0);
    let mut events = vec![Event::Link { store, up: true }];
    let mut come = |events: &mut Vec<Event>, count: usize| {
        for _ in 0..count {
            let code = random.pick(&CODES);
            let bytes = sound(code, &mut random);
            events.push(Event::Message { bytes });
        }
    };
    come(&mut events, QUEUE_DEPTH);
    for _ in 0..=QUEUE_DEPTH {
        remove(&mut events, store);
        // The second is dropped.
        come(&mut events, 2);
    }
    for _ in 0..=QUEUE_DEPTH {
        remove(&mut events, store);
    }
    for _ in 0..=QUEUE_DEPTH {
        come(&mut events, 1);
        remove(&mut events, store);
        remove(&mut events, store);
    }
    Traffic { header, events }.encode()
}

/// The primary bus of a bridge whose bus numbers were not written is 0.
fn remove(events: &mut Vec<Event>, store: u32) {
    let access = Access {
        offset: u64::from(WORD_ERRORS),
        write: true,
        data: 0,
        strobes: events.len() as u32,
    };
    let area = AREA_BYTES as u32;
    let slot = CONFIG_SLOT;
    events.push(Event::Config { access, area });
    events.push(Event::Release { store, slot });
}
