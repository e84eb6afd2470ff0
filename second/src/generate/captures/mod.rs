//! Makes captures from a seed (docs/CAPTURE.md): the traffic of the other files, on
//! the whiteboard settings, with what the records can hold.

mod actions;
mod damage;
mod edges;
mod sorts;
mod timeouts;

pub use damage::damaged;
pub use edges::edges;
pub use sorts::Sort;

use super::{Generator, Random};
use crate::capture::convert::header;
use crate::capture::{end_record, record, Event as Packed};
use crate::traffic::{Event, Machine};
use std::io::{self, Write};

/// One capture in so many has a run of T ticks.
const RUN_EVERY: u64 = 16;
const RUN_TURN: u64 = 5;
/// In a long capture there is a run after about so many events.
const LONG_RUN_EVERY: u64 = 200_000;
/// So few that the other scripts tick once at a time.
const FEW_TICKS: u32 = 100_000;

/// The records of a capture, apart from its end.
#[derive(Clone, Debug)]
pub struct Capture {
    pub records: Vec<Vec<u8>>,
}

impl Capture {
    /// With its end record.
    pub fn bytes(&self) -> Vec<u8> {
        let mut bytes = self.records.concat();
        bytes.extend(end_of(self.records.len() as u64));
        bytes
    }
}

fn end_of(count: u64) -> Vec<u8> {
    end_record(count).expect("fewer events than 2^32")
}

/// The capture of a seed, with so many events; a run of ticks counts as one.
pub fn capture(seed: u64, events: usize) -> Capture {
    let mut source = Source::new(seed);
    let run = (seed % RUN_EVERY == RUN_TURN).then(|| source.random(events as u64 / 2) as usize);
    let mut records = Vec::new();
    let mut made = 0;
    let mut ran = false;
    while made < events {
        if run.is_some_and(|at| made >= at) && !ran {
            ran = true;
            source.generator.timeouts();
        } else {
            source.generator.packed_step();
        }
        for event in source.generator.events.drain(..) {
            if made < events {
                made += usize::from(source.keeper.keep(&event, &mut records) > 0);
            }
        }
    }
    Capture { records }
}

/// Writes about so many bytes of a capture, with its end.
pub fn long(seed: u64, bytes: u64, out: &mut impl Write) -> io::Result<()> {
    let mut source = Source::new(seed);
    let mut records = Vec::new();
    let mut written = 0;
    let mut count = 0u64;
    let mut next_run = source.random(LONG_RUN_EVERY);
    while written < bytes {
        match count >= next_run {
            true => {
                source.generator.timeouts();
                next_run = count + source.random(2 * LONG_RUN_EVERY);
            }
            false => source.generator.packed_step(),
        }
        for event in source.generator.events.drain(..) {
            source.keeper.keep(&event, &mut records);
        }
        for record in records.drain(..) {
            out.write_all(&record)?;
            written += record.len() as u64;
            count += 1;
        }
    }
    out.write_all(&end_of(count))
}

struct Source {
    generator: Generator,
    keeper: Keeper,
}

impl Source {
    fn new(seed: u64) -> Source {
        let mut random = Random::new(seed ^ 0xCA97_04E0);
        let keeper = Keeper {
            random: Random::new(random.long()),
        };
        let mut generator = Generator::new(Machine::new(&header()), random);
        generator.full = true;
        generator.packed = true;
        generator.opening();
        Source { generator, keeper }
    }

    fn random(&mut self, bound: u64) -> u64 {
        self.keeper.random.below(bound.max(1))
    }
}

/// Turns events of a traffic file, which fit, into records.
struct Keeper {
    random: Random,
}

impl Keeper {
    /// How many records it made: none of a look, a message and the calls on
    /// headers, on which no later number hangs.
    fn keep(&mut self, event: &Event, records: &mut Vec<Vec<u8>>) -> u32 {
        let (packed, times) = match event {
            Event::Read { burst, .. } => (Packed::Read(*burst), 1),
            Event::Write { burst, data, .. } => {
                let (burst, data) = (*burst, data.clone());
                (Packed::Write { burst, data }, 1)
            }
            Event::Config { access, .. } if access.write => {
                let packed = Packed::ConfigWrite {
                    offset: access.offset,
                    strobes: access.strobes,
                    data: access.data,
                };
                (packed, 1)
            }
            Event::Config { access, .. } => {
                records.push(self.config_read(access.offset));
                return 1;
            }
            Event::Completion { bytes, .. } => (Packed::Completion(bytes.clone()), 1),
            Event::Tick { repeat, .. } => (Packed::Tick, *repeat),
            Event::Link { up, .. } => (Packed::Link { up: *up }, 1),
            Event::Release { slot, .. } => (Packed::Take { slot: *slot }, 1),
            _ => return 0,
        };
        let made = record(&packed).expect("what is made fits");
        for _ in 1..times {
            records.push(made.clone());
        }
        records.push(made);
        times
    }

    /// Strobes and data of a read are ignored: half of the time they are not zero.
    fn config_read(&mut self, offset: u64) -> Vec<u8> {
        let mut made = record(&Packed::ConfigRead { offset }).expect("what is made fits");
        // Four bits and 32, of which one is in the last byte, behind the flag.
        let ignored = match self.random.below(4) {
            0 => self.random.long(),
            1 => 1 << self.random.below(36),
            _ => 0,
        } % (1 << 36);
        let bits = (ignored << 7).to_be_bytes();
        for (byte, more) in made[3 + 3..].iter_mut().zip(&bits[2..]) {
            *byte |= more;
        }
        made
    }
}

/// Brings an event to what its record can hold; others have no record anyway.
pub(super) fn fit(event: &mut Event) {
    match event {
        Event::Read { burst, .. } | Event::Write { burst, .. } => {
            burst.size %= 8;
            burst.beats = burst.beats.wrapping_sub(1) % 256 + 1;
            burst.kind %= 4;
        }
        Event::Config { access, .. } => {
            access.offset %= 1 << 28;
            access.strobes %= 16;
        }
        Event::Completion { bytes, .. } => {
            let length = bytes.len().clamp(12, 4112);
            bytes.resize(length, 0);
        }
        Event::Look { slot, .. } | Event::Release { slot, .. } => *slot %= 16,
        _ => {}
    }
}
