//! From a traffic file to a capture. Nothing is lost without a word: what a capture
//! cannot hold ends the work, or is left out and told.

use crate::bridge::{AREA_BYTES, STORE_BYTES};
use crate::burst::Burst;
use crate::capture::{end_record, record, Event as Packed};
use crate::capture::{BODY_LIMIT, COMPLETION_LEAST, DATA_LIMIT};
use crate::settings::Settings;
use crate::traffic::{Decoder, Event, Header};
use std::io::{self, Write};

/// Writes the capture of a traffic file and tells, a line each, what it cannot
/// hold: with `skip` all of it, which is left out, else the first, at which it
/// stops. Whether the capture is whole; one that is not has no end record.
pub fn pack(
    file: &[u8],
    skip: bool,
    out: &mut impl Write,
    tell: impl FnMut(&str),
) -> io::Result<bool> {
    let mut packer = Packer {
        skip,
        out,
        tell,
        count: 0,
    };
    let whole = packer.file(file)?;
    if whole {
        packer.end()
    } else {
        Ok(false)
    }
}

struct Packer<'a, W: Write, T: FnMut(&str)> {
    skip: bool,
    out: &'a mut W,
    tell: T,
    /// The records so far.
    count: u64,
}

impl<W: Write, T: FnMut(&str)> Packer<'_, W, T> {
    fn file(&mut self, file: &[u8]) -> io::Result<bool> {
        let mut decoder = Decoder::new(file);
        let header = match decoder.header() {
            Ok(header) => header,
            Err(fault) => return Ok(self.fault(&fault)),
        };
        for why in header_losses(&header) {
            if !self.lose("header", &why) {
                return Ok(false);
            }
        }
        // One event is held back, since a look may belong to the release behind it.
        let mut index = 0u64;
        let mut present = decoder.event();
        loop {
            let event = match present {
                Ok(Some(event)) => event,
                Ok(None) => return Ok(true),
                Err(fault) => return Ok(self.fault(&fault)),
            };
            present = decoder.event();
            let behind = present.as_ref().ok().and_then(Option::as_ref);
            if !self.event(index, &event, behind)? {
                return Ok(false);
            }
            index += 1;
        }
    }

    fn fault(&mut self, fault: &crate::traffic::Fault) -> bool {
        let (what, part, at) = (fault.what, &fault.part, fault.at);
        (self.tell)(&format!(
            "the traffic file ends early: {what} {part} at {at}"
        ));
        false
    }

    /// Whether to go on.
    fn lose(&mut self, part: &str, why: &str) -> bool {
        let line = match self.skip {
            true => format!("{part} left out: {why}"),
            false => format!("{part}: {why}"),
        };
        (self.tell)(&line);
        self.skip
    }

    fn event(&mut self, index: u64, event: &Event, behind: Option<&Event>) -> io::Result<bool> {
        if is_looked_at_first(event, behind) {
            return Ok(true);
        }
        match packed(event) {
            Err(why) => Ok(self.lose(&format!("event {index}"), &why)),
            Ok((value, times)) => {
                let bytes = record(&value).expect("what has no reason against it fits");
                for _ in 0..times {
                    self.out.write_all(&bytes)?;
                }
                self.count += u64::from(times);
                Ok(true)
            }
        }
    }

    fn end(&mut self) -> io::Result<bool> {
        match end_record(self.count) {
            Some(bytes) => self.out.write_all(&bytes).map(|()| true),
            None => {
                (self.tell)("end: a capture counts fewer events than 2^32");
                Ok(false)
            }
        }
    }
}

/// A look whose release is the next event: the two are one take.
fn is_looked_at_first(event: &Event, behind: Option<&Event>) -> bool {
    match (event, behind) {
        (
            Event::Look { store, slot },
            Some(Event::Release {
                store: other,
                slot: same,
            }),
        ) => slot == same && long_enough(*store) && long_enough(*other),
        _ => false,
    }
}

fn long_enough(store: u32) -> bool {
    store as usize >= STORE_BYTES
}

/// What the header says that a capture does not.
fn header_losses(header: &Header) -> Vec<String> {
    let mut list = Vec::new();
    let settings = &header.settings;
    let right = Settings::example();
    let others = |s: &Settings| {
        let limits = [s.bus_bits, s.read_limit, s.write_limit];
        (limits, s.time_limit, s.requester)
    };
    if settings.used() != right.used() || others(settings) != others(&right) {
        list.push("other settings than those a capture is played with".to_string());
    }
    if header.counter != 0 {
        let value = header.counter;
        list.push(format!("first tick value {value}, a capture begins at 0"));
    }
    if let Some(value) = header.first_session().filter(|value| *value != 0) {
        list.push(format!(
            "first session value {value}, a capture begins at 0"
        ));
    }
    list
}

/// The event and how often it stands there, or why a capture cannot hold it.
fn packed(event: &Event) -> Result<(Packed, u32), String> {
    lent(event)?;
    let value = match event {
        Event::Read { burst, .. } => {
            fitting_burst(burst)?;
            Packed::Read(*burst)
        }
        Event::Write { burst, data, .. } => {
            fitting_burst(burst)?;
            most("data of", data.len() as u64, DATA_LIMIT as u64, " bytes")?;
            let data = data.clone();
            Packed::Write {
                burst: *burst,
                data,
            }
        }
        Event::Config { access, .. } => {
            let offset = access.offset;
            most("offset", offset, (1 << 28) - 1, "")?;
            if access.write {
                most("strobes", access.strobes.into(), 15, "")?;
            }
            match access.write {
                true => Packed::ConfigWrite {
                    offset,
                    strobes: access.strobes,
                    data: access.data,
                },
                false => Packed::ConfigRead { offset },
            }
        }
        Event::Completion { bytes, .. } => {
            let length = bytes.len();
            if length < COMPLETION_LEAST {
                return Err(format!(
                    "a completion of {length} bytes, at least {COMPLETION_LEAST}"
                ));
            }
            let limit = BODY_LIMIT as u64;
            most("a completion of", length as u64, limit, " bytes")?;
            Packed::Completion(bytes.clone())
        }
        Event::Link { up, .. } => Packed::Link { up: *up },
        Event::Tick { repeat, .. } => return Ok((Packed::Tick, *repeat)),
        Event::Release { slot, .. } => {
            most("slot", (*slot).into(), 15, "")?;
            Packed::Take { slot: *slot }
        }
        Event::Look { .. } => {
            return Err("a look without a release of the same slot right after it".to_string())
        }
        Event::Message { .. } => return Err("no kind of record for a message".to_string()),
        _ => return Err("no kind of record for a call on headers".to_string()),
    };
    Ok((value, 1))
}

/// A capture lends enough, so it cannot say that too little was lent.
fn lent(event: &Event) -> Result<(), String> {
    let (what, length, enough) = match event {
        Event::Read { area, .. } | Event::Write { area, .. } | Event::Config { area, .. } => {
            ("an area", *area, AREA_BYTES)
        }
        Event::Completion { store, .. }
        | Event::Tick { store, .. }
        | Event::Link { store, .. }
        | Event::Look { store, .. }
        | Event::Release { store, .. } => ("a store", *store, STORE_BYTES),
        _ => return Ok(()),
    };
    match length as usize >= enough {
        true => Ok(()),
        false => Err(format!(
            "{what} of {length} bytes, a capture lends {enough}"
        )),
    }
}

fn fitting_burst(burst: &Burst) -> Result<(), String> {
    most("size code", burst.size.into(), 7, "")?;
    if burst.beats == 0 {
        return Err("beats 0, at least 1".to_string());
    }
    most("beats", burst.beats.into(), 256, "")?;
    most("burst type", burst.kind.into(), 3, "")
}

fn most(what: &str, value: u64, limit: u64, unit: &str) -> Result<(), String> {
    match value <= limit {
        true => Ok(()),
        false => Err(format!("{what} {value}{unit}, at most {limit}")),
    }
}
