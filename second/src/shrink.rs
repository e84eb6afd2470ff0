//! Compares two players on one file and shrinks a file on which they differ.

use crate::traffic::{Event, Making, Traffic};

/// The first line in which two logs differ: its number and both texts.
#[derive(Clone, Debug, PartialEq, Eq)]
pub struct Difference {
    pub line: usize,
    pub one: String,
    pub other: String,
}

/// The first difference of two logs, if there is one.
pub fn difference(one: &str, other: &str) -> Option<Difference> {
    let mut left = one.split('\n');
    let mut right = other.split('\n');
    for line in 0.. {
        match (left.next(), right.next()) {
            (None, None) => break,
            (a, b) if a == b => {}
            (a, b) => {
                return Some(Difference {
                    line,
                    one: a.unwrap_or("(no line)").to_string(),
                    other: b.unwrap_or("(no line)").to_string(),
                })
            }
        }
    }
    None
}

/// Line 0 is the new call, line i + 1 event i.
impl Difference {
    pub fn event(&self) -> Option<usize> {
        self.line.checked_sub(1)
    }
}

/// Shrinks while `differs` holds of the file's bytes.
pub struct Shrinker<F: FnMut(&Traffic) -> bool> {
    differs: F,
    /// How often the players may still be run.
    allowance: u32,
}

impl<F: FnMut(&Traffic) -> bool> Shrinker<F> {
    pub fn new(differs: F, allowance: u32) -> Shrinker<F> {
        Shrinker { differs, allowance }
    }

    fn still(&mut self, candidate: &Traffic) -> bool {
        if self.allowance == 0 {
            return false;
        }
        self.allowance -= 1;
        (self.differs)(candidate)
    }

    /// A smaller file that still differs; `traffic` itself must.
    pub fn shrink(&mut self, traffic: &Traffic) -> Traffic {
        let mut best = traffic.clone();
        loop {
            let before = (best.events.len(), self.allowance);
            self.remove_chunks(&mut best);
            self.simplify_header(&mut best);
            self.simplify(&mut best);
            if best.events.len() == before.0 || self.allowance == 0 {
                return best;
            }
        }
    }

    /// Leaves out runs of events, long ones first.
    fn remove_chunks(&mut self, best: &mut Traffic) {
        let mut size = best.events.len().div_ceil(2);
        while size > 0 {
            let mut from = 0;
            while from < best.events.len() {
                let to = (from + size).min(best.events.len());
                let mut candidate = best.clone();
                candidate.events.drain(from..to);
                if self.still(&candidate) {
                    *best = candidate;
                } else {
                    from = to;
                }
            }
            size /= 2;
        }
    }

    /// A first session value of 0, or no such value at all.
    fn simplify_header(&mut self, best: &mut Traffic) {
        let Making::ListAndSession(seventh, _) = best.header.making else {
            return;
        };
        for making in [Making::List(seventh), Making::ListAndSession(seventh, 0)] {
            let mut candidate = best.clone();
            candidate.header.making = making;
            if candidate != *best && self.still(&candidate) {
                *best = candidate;
                break;
            }
        }
    }

    /// Fewer ticks in one record, zeros for data, for requester ID and tag.
    fn simplify(&mut self, best: &mut Traffic) {
        for index in 0..best.events.len() {
            for simpler in simpler_events(&best.events[index]) {
                let mut candidate = best.clone();
                candidate.events[index] = simpler;
                if candidate != *best && self.still(&candidate) {
                    *best = candidate;
                    break;
                }
            }
        }
    }
}

fn simpler_events(event: &Event) -> Vec<Event> {
    match event {
        Event::Tick { store, repeat } => [1, repeat.div_ceil(2), repeat.saturating_sub(1).max(1)]
            .iter()
            .map(|r| Event::Tick {
                store: *store,
                repeat: *r,
            })
            .collect(),
        Event::Write { burst, area, data } => vec![Event::Write {
            burst: *burst,
            area: *area,
            data: vec![0; data.len()],
        }],
        Event::Completion { store, bytes } if bytes.len() > 12 => {
            let mut plain = bytes.clone();
            plain[12..].fill(0);
            vec![Event::Completion {
                store: *store,
                bytes: plain,
            }]
        }
        // A sound message stays sound without requester ID and tag.
        Event::Message { bytes } if bytes.len() > 6 => {
            let mut plain = bytes.clone();
            plain[4..7].fill(0);
            vec![Event::Message { bytes: plain }]
        }
        _ => Vec::new(),
    }
}
