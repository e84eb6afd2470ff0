//! A slow reader of captures, bit by bit.

use super::common::{AREA, STORE};
use replay::plain::capture::Verdict;
use replay::plain::record::Fault;
use second::bridge::Access;
use second::burst::Burst;
use second::settings::AxiAddress;
use second::traffic::Event;

/// The bits of some bytes, the most significant first.
struct Bits<'a> {
    bytes: &'a [u8],
    at: usize,
}

impl Bits<'_> {
    fn take(&mut self, count: usize) -> u64 {
        (0..count).fold(0, |sum, _| {
            let bit = self.bytes[self.at / 8] >> (7 - self.at % 8) & 1;
            self.at += 1;
            sum << 1 | u64::from(bit)
        })
    }

    /// The rest is zero.
    fn padded(&mut self) -> bool {
        (self.at..8 * self.bytes.len()).all(|_| self.take(1) == 0)
    }
}

enum Found {
    More,
    Bad(Fault),
    End,
    Event(Event, usize),
}

fn lengths(kind: u8) -> std::ops::RangeInclusive<usize> {
    [
        4..=4,
        10..=10,
        10..=4112,
        9..=9,
        12..=4112,
        1..=1,
        0..=0,
        1..=1,
    ][kind as usize]
        .clone()
}

fn first(bytes: &[u8], events: u64) -> Found {
    let Some(kind) = bytes.first().map(|b| b >> 4) else {
        return Found::More;
    };
    if kind > 7 {
        return Found::Bad(Fault::Kind);
    }
    if bytes.len() < 3 {
        return Found::More;
    }
    let length = 256 * bytes[1] as usize + bytes[2] as usize;
    if !lengths(kind).contains(&length) {
        return Found::Bad(Fault::Length);
    }
    if bytes.len() < 3 + length {
        return Found::More;
    }
    judge(kind, bytes[0] & 15 == 0, &bytes[3..3 + length], events)
}

fn judge(kind: u8, clean: bool, body: &[u8], events: u64) -> Found {
    let (store, area) = (STORE as u32, AREA as u32);
    let mut bits = Bits { bytes: body, at: 0 };
    let mut data = Vec::new();
    let event = match kind {
        0 => {
            let count = bits.take(32);
            return match (clean, count == events) {
                (false, _) => Found::Bad(Fault::Padding),
                (_, false) => Found::Bad(Fault::Count),
                _ => Found::End,
            };
        }
        1 | 2 => {
            let burst = Burst {
                start: AxiAddress(bits.take(64)),
                size: bits.take(3) as u32,
                beats: bits.take(8) as u32 + 1,
                kind: bits.take(2) as u32,
            };
            data.extend_from_slice(&body[10..]);
            bits.bytes = &body[..10];
            match kind {
                1 => Event::Read { burst, area },
                _ => Event::Write { burst, area, data },
            }
        }
        3 => {
            let offset = bits.take(28);
            let write = bits.take(1) == 1;
            let strobes = bits.take(4) as u32;
            let data = bits.take(32) as u32;
            let access = Access {
                offset,
                write,
                data,
                strobes,
            };
            Event::Config { access, area }
        }
        4 => {
            bits.at = 8 * body.len();
            let bytes = body.to_vec();
            Event::Completion { store, bytes }
        }
        5 => Event::Link {
            store,
            up: bits.take(1) == 1,
        },
        6 => Event::Tick { store, repeat: 1 },
        _ => Event::Release {
            store,
            slot: bits.take(4) as u32,
        },
    };
    match clean && bits.padded() {
        true => Found::Event(event, 3 + body.len()),
        false => Found::Bad(Fault::Padding),
    }
}

/// A file's events and its verdict.
pub fn file(bytes: &[u8]) -> (Vec<Event>, Verdict) {
    let mut list = Vec::new();
    let mut at = 0;
    loop {
        let events = list.len() as u64;
        match first(&bytes[at..], events) {
            Found::More => return (list, Verdict::Cut(events)),
            Found::Bad(fault) => return (list, Verdict::Bad(fault, at as u64)),
            Found::End => return (list, Verdict::End(events)),
            Found::Event(event, size) => {
                list.push(event);
                at += size;
            }
        }
    }
}
