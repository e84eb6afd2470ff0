//! The reader that takes a file in any cutting.

use super::layout::{FRONT_BYTES, RECORD_LIMIT};
use super::read::{next, Fault, Next, Verdict};
use super::Event;

#[derive(Clone, Copy, Debug, PartialEq, Eq)]
pub enum Phase {
    Reading,
    Ended,
    Bad(Fault),
}

/// Where the present record begins, how many events were before it, its bytes so
/// far, and whether there will be more.
#[derive(Clone, Debug, PartialEq, Eq)]
pub struct Reader {
    at: u64,
    count: u64,
    held: Vec<u8>,
    phase: Phase,
}

impl Default for Reader {
    fn default() -> Reader {
        Reader {
            at: 0,
            count: 0,
            held: Vec::with_capacity(RECORD_LIMIT),
            phase: Phase::Reading,
        }
    }
}

impl Reader {
    /// A reader with so many bytes and events behind it.
    pub fn after(bytes: u64, events: u64) -> Reader {
        Reader {
            at: bytes,
            count: events,
            ..Reader::default()
        }
    }

    pub fn phase(&self) -> Phase {
        self.phase
    }

    /// The events so far.
    pub fn count(&self) -> u64 {
        self.count
    }

    /// Whether the bytes so far end within a record.
    pub fn within(&self) -> bool {
        !self.held.is_empty()
    }

    /// How the file ends if no byte follows.
    pub fn verdict(&self) -> Verdict {
        match self.phase {
            Phase::Reading => Verdict::Cut(self.count),
            Phase::Ended => Verdict::End(self.count),
            Phase::Bad(fault) => Verdict::Bad(fault, self.at),
        }
    }

    /// One byte, by definition; after the end or a fault it changes nothing.
    pub fn push(&mut self, byte: u8) -> Option<Event> {
        if self.phase != Phase::Reading {
            return None;
        }
        self.held.push(byte);
        let found = next(self.count, &self.held);
        self.take(found)
    }

    /// Takes bytes up to the next event, the end, a fault or the last of them; how
    /// many were taken, and the event.
    pub fn step(&mut self, input: &[u8]) -> (usize, Option<Event>) {
        let mut taken = 0;
        while self.phase == Phase::Reading && taken < input.len() {
            let rest = &input[taken..];
            let found = match self.held.is_empty() {
                // The record begins here, so it is read where it lies.
                true => {
                    let found = next(self.count, rest);
                    taken += self.size(&found).unwrap_or_else(|| {
                        self.held.extend(rest);
                        rest.len()
                    });
                    found
                }
                false => {
                    let wanted = self.wanted().min(rest.len());
                    self.held.extend(&rest[..wanted]);
                    taken += wanted;
                    next(self.count, &self.held)
                }
            };
            let event = self.take(found);
            if event.is_some() {
                return (taken, event);
            }
        }
        (taken, None)
    }

    fn size(&self, found: &Next) -> Option<usize> {
        match found {
            Next::More => None,
            Next::Bad { size, .. } | Next::End { size } | Next::Event { size, .. } => Some(*size),
        }
    }

    /// How many bytes bring the begun record to where it is judged next.
    fn wanted(&self) -> usize {
        match self.held[..] {
            [_, high, low, ..] => {
                let length = usize::from(u16::from_be_bytes([high, low]));
                FRONT_BYTES + length - self.held.len()
            }
            _ => 1,
        }
    }

    /// Both numbers stop at their last value, so that no count is right after it.
    fn take(&mut self, found: Next) -> Option<Event> {
        match found {
            Next::More => return None,
            Next::Bad { fault, .. } => self.phase = Phase::Bad(fault),
            Next::End { .. } => self.phase = Phase::Ended,
            Next::Event { event, size } => {
                self.held.clear();
                self.at = self.at.saturating_add(size as u64);
                self.count = self.count.saturating_add(1);
                return Some(event);
            }
        }
        self.held.clear();
        None
    }

    /// All the bytes, and the events that they complete.
    pub fn feed(&mut self, input: &[u8]) -> Vec<Event> {
        let mut events = Vec::new();
        let mut rest = input;
        while let (taken, Some(event)) = self.step(rest) {
            events.push(event);
            rest = &rest[taken..];
        }
        events
    }
}
