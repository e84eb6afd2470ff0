//! The readers by definition: one record, and a whole file.

use super::layout::{Layout, Values, FRONT_BYTES, KIND_COMPLETION, KIND_CONFIG, KIND_END};
use super::layout::{KIND_LINK, KIND_READ, KIND_TAKE, KIND_TICK, KIND_WRITE};
use super::Event;
use crate::burst::Burst;
use crate::settings::AxiAddress;

#[derive(Clone, Copy, Debug, PartialEq, Eq, PartialOrd, Ord)]
pub enum Fault {
    Kind,
    Length,
    Padding,
    Count,
}

/// How a file ends, with the number of its events or the offset of its bad record.
#[derive(Clone, Copy, Debug, PartialEq, Eq)]
pub enum Verdict {
    End(u64),
    Cut(u64),
    Bad(Fault, u64),
}

/// What the bytes at hand begin with. `size` is how many of them say so: the whole
/// record, or as many as its fault needs.
#[derive(Clone, Debug, PartialEq, Eq)]
pub enum Next {
    /// No byte, or not yet the whole of a record that may be sound.
    More,
    Bad {
        fault: Fault,
        size: usize,
    },
    End {
        size: usize,
    },
    Event {
        event: Event,
        size: usize,
    },
}

/// The record at the head of these bytes, after `count` events: "A kind is judged
/// on its first byte, a length on the first three, then padding (the zero bits too)
/// and count on the whole record".
pub fn next(count: u64, bytes: &[u8]) -> Next {
    let Some(&first) = bytes.first() else {
        return Next::More;
    };
    let Some(layout) = Layout::of(first >> 4) else {
        return bad(Fault::Kind, 1);
    };
    let Some(&[_, high, low]) = bytes.first_chunk::<FRONT_BYTES>() else {
        return Next::More;
    };
    let length = usize::from(u16::from_be_bytes([high, low]));
    if !layout.takes(length) {
        return bad(Fault::Length, FRONT_BYTES);
    }
    let size = FRONT_BYTES + length;
    let Some(body) = bytes.get(FRONT_BYTES..size) else {
        return Next::More;
    };
    match layout.unpack(body) {
        Some((values, rest)) if first % 16 == 0 => judged(layout.kind, &values, rest, count, size),
        _ => bad(Fault::Padding, size),
    }
}

fn bad(fault: Fault, size: usize) -> Next {
    Next::Bad { fault, size }
}

/// A whole record with right padding: an end is still judged by its count.
fn judged(kind: u8, values: &Values, rest: &[u8], count: u64, size: usize) -> Next {
    let event = match kind {
        KIND_END if values[0] == count => return Next::End { size },
        KIND_END => return bad(Fault::Count, size),
        KIND_READ => Event::Read(burst(values)),
        KIND_WRITE => Event::Write {
            burst: burst(values),
            data: rest.to_vec(),
        },
        KIND_CONFIG if values[1] == 0 => Event::ConfigRead { offset: values[0] },
        KIND_CONFIG => Event::ConfigWrite {
            offset: values[0],
            strobes: values[2] as u32,
            data: values[3] as u32,
        },
        KIND_COMPLETION => Event::Completion(rest.to_vec()),
        KIND_LINK => Event::Link { up: values[0] == 1 },
        KIND_TICK => Event::Tick,
        KIND_TAKE => Event::Take {
            slot: values[0] as u32,
        },
        _ => unreachable!("the table has no other kind"),
    };
    Next::Event { event, size }
}

/// Fields of 3, 8 and 2 bits fit in 32.
fn burst(values: &Values) -> Burst {
    Burst {
        start: AxiAddress(values[0]),
        size: values[1] as u32,
        beats: values[2] as u32 + 1,
        kind: values[3] as u32,
    }
}

/// A whole file: its events and how it ends.
pub fn file(bytes: &[u8]) -> (Vec<Event>, Verdict) {
    let mut events = Vec::new();
    let mut at = 0;
    loop {
        let count = events.len() as u64;
        match next(count, &bytes[at..]) {
            Next::Event { event, size } => {
                events.push(event);
                at += size;
            }
            Next::End { .. } => return (events, Verdict::End(count)),
            Next::More => return (events, Verdict::Cut(count)),
            Next::Bad { fault, .. } => return (events, Verdict::Bad(fault, at as u64)),
        }
    }
}
