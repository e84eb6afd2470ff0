//! From a capture, in any blocks, to a traffic file.

use super::header;
use crate::bridge::{Access, AREA_BYTES, STORE_BYTES};
use crate::capture::{lines, Event as Packed, Phase, Reader, Verdict};
use crate::traffic::{end_bytes, event_bytes, header_bytes, Event};
use crate::traffic::{REPEATS_LIMIT, REPEAT_LIMIT};

const AREA: u32 = AREA_BYTES as u32;
const STORE: u32 = STORE_BYTES as u32;

/// Takes a capture and gives a traffic file with the same events: a take is a look
/// and a release, and ticks in a row are one record.
pub struct Unpacker {
    reader: Reader,
    /// Bytes of the traffic file that were not handed out yet.
    out: Vec<u8>,
    /// The traffic file's events so far.
    events: u32,
    /// Ticks that wait for their record, and how many more the file may have.
    ticks: u32,
    ticks_left: u32,
    /// Why no further event is taken, apart from the capture's verdict.
    stopped: Option<String>,
}

impl Default for Unpacker {
    fn default() -> Unpacker {
        Unpacker::with_ticks(REPEATS_LIMIT)
    }
}

impl Unpacker {
    /// Of a traffic file with at most so many ticks.
    pub fn with_ticks(most: u32) -> Unpacker {
        Unpacker {
            reader: Reader::default(),
            out: header_bytes(&header()),
            events: 0,
            ticks: 0,
            ticks_left: most,
            stopped: None,
        }
    }

    /// Whether further bytes can change anything.
    pub fn reads_on(&self) -> bool {
        self.stopped.is_none() && self.reader.phase() == Phase::Reading
    }

    /// Takes a block and gives the traffic file's next bytes.
    pub fn feed(&mut self, block: &[u8]) -> Vec<u8> {
        let mut rest = block;
        while self.stopped.is_none() {
            let (taken, event) = self.reader.step(rest);
            rest = &rest[taken..];
            match event {
                Some(event) => self.event(event),
                None => break,
            }
        }
        std::mem::take(&mut self.out)
    }

    /// The traffic file's last bytes, a right end among them, and what is wrong
    /// with the capture.
    pub fn finish(mut self) -> (Vec<u8>, Option<String>) {
        self.write_ticks();
        self.out.extend(end_bytes(self.events));
        let wrong = match (self.stopped, self.reader.verdict()) {
            (Some(why), _) => Some(why),
            (None, Verdict::End(_)) => None,
            (None, verdict) => Some(lines::last(verdict)),
        };
        (self.out, wrong)
    }

    fn event(&mut self, event: Packed) {
        // A take needs room for two, ticks before it for one.
        if self.events > u32::MAX - 3 {
            return self.stop("a traffic file counts fewer events than 2^32");
        }
        if event == Packed::Tick {
            return self.tick();
        }
        self.write_ticks();
        for event in traffic_events(event) {
            self.write(&event);
        }
    }

    fn tick(&mut self) {
        if self.ticks_left == 0 {
            return self.stop("more ticks than a traffic file may have");
        }
        self.ticks_left -= 1;
        self.ticks += 1;
        if self.ticks == REPEAT_LIMIT {
            self.write_ticks();
        }
    }

    /// The event in question is the last that was read.
    fn stop(&mut self, why: &str) {
        let at = self.reader.count();
        self.stopped = Some(format!("event {at} of the capture: {why}"));
    }

    fn write_ticks(&mut self) {
        if self.ticks > 0 {
            let repeat = std::mem::take(&mut self.ticks);
            let store = STORE;
            self.write(&Event::Tick { store, repeat });
        }
    }

    fn write(&mut self, event: &Event) {
        self.out.extend(event_bytes(event));
        self.events += 1;
    }
}

/// Apart from ticks.
fn traffic_events(event: Packed) -> Vec<Event> {
    let (area, store) = (AREA, STORE);
    let config = |offset, write, strobes, data| Event::Config {
        access: Access {
            offset,
            write,
            data,
            strobes,
        },
        area,
    };
    match event {
        Packed::Read(burst) => vec![Event::Read { burst, area }],
        Packed::Write { burst, data } => vec![Event::Write { burst, area, data }],
        Packed::ConfigRead { offset } => vec![config(offset, false, 0, 0)],
        Packed::ConfigWrite {
            offset,
            strobes,
            data,
        } => vec![config(offset, true, strobes, data)],
        Packed::Completion(bytes) => vec![Event::Completion { store, bytes }],
        Packed::Link { up } => vec![Event::Link { store, up }],
        Packed::Take { slot } => {
            vec![Event::Look { store, slot }, Event::Release { store, slot }]
        }
        Packed::Tick => vec![Event::Tick { store, repeat: 1 }],
        Packed::Message(bytes) => vec![Event::Message { bytes }],
    }
}
