//! What a set of traffic has reached: the table of event kinds by numbers and a
//! list of named points.

pub mod captures;
mod classify;
mod devices;
mod errors;
mod observe;
mod points;
mod sessions;

use crate::generate;
use crate::traffic::{Machine, Traffic};
use std::collections::{BTreeMap, BTreeSet};

/// The numbers that each kind of event can give.
pub const REACHABLE: [(&str, &[u32]); 14] = [
    ("new", &[0, 1]),
    ("read", &[0, 2, 3, 4, 5, 6, 7, 8]),
    ("write", &[0, 2, 3, 4, 8, 15]),
    ("config", &[0, 4, 5, 7, 8, 9, 10, 11]),
    ("completion", &[0, 8, 12, 13]),
    ("tick", &[0, 8]),
    ("link", &[0, 8]),
    ("look", &[0, 8, 14]),
    ("release", &[0, 8, 14]),
    ("request-writer", &[0, 8, 12]),
    ("request-reader", &[0, 12]),
    ("completion-writer", &[0, 8, 12]),
    ("completion-reader", &[0, 12]),
    ("message", &[0, 4, 12]),
];

#[derive(Default)]
pub struct Coverage {
    pub events: u64,
    numbers: BTreeMap<(&'static str, u32), u64>,
    points: BTreeMap<String, u64>,
}

/// What an observer remembers within one file.
#[derive(Default)]
struct Memory {
    /// Tags that were open at some time.
    used: BTreeSet<u32>,
    /// Tags that rested at some time.
    rested: BTreeSet<u32>,
    /// Open tags for which a completion was ahead of the missing bytes.
    ahead: BTreeSet<u32>,
    /// The link went down with messages queued, and none came since.
    kept: bool,
    /// How many messages were removed.
    removed: usize,
    /// The last accepted configuration access, read or write, where it was a type
    /// 1 request to a device above 0.
    below: Option<&'static str>,
    lives: sessions::Lives,
}

impl Coverage {
    /// Plays the traffic of the seeds from `from` to `to`, both included.
    pub fn of_seeds(from: u64, to: u64, events: usize) -> Coverage {
        let mut coverage = Coverage::default();
        for seed in from..=to {
            coverage.add(&generate::traffic(seed, events));
        }
        coverage
    }

    pub fn add(&mut self, traffic: &Traffic) {
        let mut machine = Machine::new(&traffic.header);
        self.number("new", machine.number);
        self.settings(&traffic.header.settings);
        self.making(&traffic.header, machine.number);
        self.first_session(&traffic.header, machine.number);
        let mut memory = Memory {
            lives: sessions::Lives::new(&traffic.header, machine.number),
            ..Memory::default()
        };
        for event in &traffic.events {
            let before = machine.bridge.clone();
            let outcome = machine.play(event);
            self.events += 1;
            self.number(event.name(), outcome.number());
            self.observe(&before, event, &outcome, &machine, &mut memory);
        }
    }

    fn number(&mut self, kind: &'static str, number: u32) {
        *self.numbers.entry((kind, number)).or_default() += 1;
    }

    fn hit(&mut self, point: impl Into<String>) {
        *self.points.entry(point.into()).or_default() += 1;
    }

    fn hit_if(&mut self, holds: bool, point: impl Into<String>) {
        if holds {
            self.hit(point);
        }
    }

    fn count(&self, kind: &'static str, number: u32) -> u64 {
        self.numbers.get(&(kind, number)).copied().unwrap_or(0)
    }

    /// The tables, and the cells and points that are empty or should be.
    pub fn report(&self) -> (String, Vec<String>) {
        let mut wrong = Vec::new();
        let mut text = format!("{} events\n\n{:18}", self.events, "");
        for number in 0..16 {
            text += &format!("{number:>8}");
        }
        for (kind, reachable) in REACHABLE {
            text += &format!("\n{kind:18}");
            for number in 0..16 {
                text += &self.cell(kind, number, reachable, &mut wrong);
            }
        }
        text += "\n\n";
        for point in points::required() {
            let count = self.points.get(&point).copied().unwrap_or(0);
            text += &format!("{count:>9}  {point}\n");
            if count == 0 {
                wrong.push(format!("empty: {point}"));
            }
        }
        (text, wrong)
    }

    fn cell(
        &self,
        kind: &'static str,
        number: u32,
        reachable: &[u32],
        wrong: &mut Vec<String>,
    ) -> String {
        let count = self.count(kind, number);
        let can = reachable.contains(&number);
        if can != (count > 0) {
            wrong.push(format!("{kind} {number} came {count} times"));
        }
        match can || count > 0 {
            true => format!("{count:>8}"),
            false => format!("{:>8}", "."),
        }
    }
}
