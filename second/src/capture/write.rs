//! From an event, or the end, to its record.

use super::layout::{Layout, Values, KIND_COMPLETION, KIND_CONFIG, KIND_END, KIND_LINK};
use super::layout::{KIND_READ, KIND_TAKE, KIND_TICK, KIND_WRITE};
use super::Event;
use crate::burst::Burst;
use crate::header::Written;

/// "The writer gives 12 for an event this layout cannot hold, then 8 for too short
/// an area." It fills a prefix and the rest stays; refused, all of it does.
pub fn write(event: &Event, area: &mut [u8]) -> Written {
    place(record(event), area)
}

/// The end record; the caller says how many events there were.
pub fn write_end(count: u64, area: &mut [u8]) -> Written {
    place(end_record(count), area)
}

fn place(record: Option<Vec<u8>>, area: &mut [u8]) -> Written {
    let refused = |number| Written { number, length: 0 };
    let Some(record) = record else {
        return refused(12);
    };
    let Some(prefix) = area.get_mut(..record.len()) else {
        return refused(8);
    };
    prefix.copy_from_slice(&record);
    Written {
        number: 0,
        length: record.len() as u32,
    }
}

/// The record, or nothing where the layout cannot hold the event.
pub fn record(event: &Event) -> Option<Vec<u8>> {
    let none: &[u8] = &[];
    let (kind, values, bytes) = match event {
        Event::Read(burst) => (KIND_READ, burst_values(burst), none),
        Event::Write { burst, data } => (KIND_WRITE, burst_values(burst), &data[..]),
        Event::ConfigRead { offset } => (KIND_CONFIG, [*offset, 0, 0, 0], none),
        Event::ConfigWrite {
            offset,
            strobes,
            data,
        } => {
            let values = [*offset, 1, u64::from(*strobes), u64::from(*data)];
            (KIND_CONFIG, values, none)
        }
        Event::Completion(bytes) => (KIND_COMPLETION, [0; 4], &bytes[..]),
        Event::Link { up } => (KIND_LINK, one(u64::from(*up)), none),
        Event::Tick => (KIND_TICK, [0; 4], none),
        Event::Take { slot } => (KIND_TAKE, one(u64::from(*slot)), none),
        Event::Message(_) => return None,
    };
    Layout::of(kind)?.pack(&values, bytes)
}

/// "the number of earlier events (32)": none after 2^32 and more.
pub fn end_record(count: u64) -> Option<Vec<u8>> {
    Layout::of(KIND_END)?.pack(&one(count), &[])
}

fn one(value: u64) -> Values {
    [value, 0, 0, 0]
}

/// "beats less one": of no beat there is none, and that fits in no field.
fn burst_values(burst: &Burst) -> Values {
    let less_one = u64::from(burst.beats).wrapping_sub(1);
    let [size, kind] = [burst.size, burst.kind].map(u64::from);
    [burst.start.0, size, less_one, kind]
}
