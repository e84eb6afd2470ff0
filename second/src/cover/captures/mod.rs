//! What a set of captures has reached: the table of names by numbers, and named
//! points of the format, of the events and of the allowances.

mod events;
mod faults;
mod trials;

use crate::capture::{next, Bench, Next};
use crate::generate::captures::{capture, damaged};
use std::collections::BTreeMap;

/// The numbers that each name can have in a capture. 1, 8 and 9 never come: the
/// settings are right, enough is lent, and 28 bits of offset do not leave the space.
pub const REACHABLE: [(&str, &[u32]); 8] = [
    ("read", &[0, 2, 3, 4, 5, 6, 7]),
    ("write", &[0, 2, 3, 4, 15]),
    ("config", &[0, 4, 5, 7, 10, 11]),
    ("completion", &[0, 12, 13]),
    ("link up", &[0]),
    ("link down", &[0]),
    ("tick", &[0]),
    ("take", &[0, 14]),
];

#[derive(Default)]
pub struct CaptureCoverage {
    pub files: u64,
    pub events: u64,
    numbers: BTreeMap<(&'static str, u32), u64>,
    points: BTreeMap<String, u64>,
    /// What does not agree with the definition.
    wrong: Vec<String>,
}

impl CaptureCoverage {
    /// Plays the captures of the seeds, each right and damaged.
    pub fn of_seeds(from: u64, to: u64, events: usize) -> CaptureCoverage {
        let mut coverage = CaptureCoverage::default();
        for seed in from..=to {
            coverage.add(&capture(seed, events).bytes(), seed);
            coverage.add(&damaged(seed, events), seed);
        }
        coverage
    }

    /// The seed chooses cuttings and allowances.
    pub fn add(&mut self, bytes: &[u8], seed: u64) {
        self.files += 1;
        let mut bench = Bench::default();
        let mut at = 0;
        let mut count = 0;
        loop {
            let rest = &bytes[at..];
            let found = next(count, rest);
            let Next::Event { event, size } = found else {
                self.last(found, rest, count);
                break;
            };
            let before = bench.bridge.clone();
            let answer = bench.play(&event);
            *self
                .numbers
                .entry((event.name(), answer.number))
                .or_default() += 1;
            self.event(&before, &event, &answer, &bench, &rest[..size]);
            at += size;
            count += 1;
        }
        self.events += count;
        self.trial(bytes, seed);
    }

    fn hit(&mut self, point: impl Into<String>) {
        *self.points.entry(point.into()).or_default() += 1;
    }

    fn hit_if(&mut self, holds: bool, point: impl Into<String>) {
        if holds {
            self.hit(point);
        }
    }

    /// How many cells the report has, of both tables.
    pub fn cells() -> usize {
        let numbers: usize = REACHABLE.iter().map(|(_, list)| list.len()).sum();
        numbers + required().len()
    }

    /// The tables, and the cells and points that are empty or should be.
    pub fn report(&self) -> (String, Vec<String>) {
        let mut wrong = self.wrong.clone();
        let mut text = format!("{} captures, {} events\n\n", self.files, self.events);
        text += &format!("{:12}", "");
        for number in 0..16 {
            text += &format!("{number:>8}");
        }
        for (name, reachable) in REACHABLE {
            text += &format!("\n{name:12}");
            for number in 0..16 {
                let count = self.numbers.get(&(name, number)).copied().unwrap_or(0);
                let can = reachable.contains(&number);
                if can != (count > 0) {
                    wrong.push(format!("{name} {number} came {count} times"));
                }
                text += &match can || count > 0 {
                    true => format!("{count:>8}"),
                    false => format!("{:>8}", "."),
                };
            }
        }
        text += "\n\n";
        for point in required() {
            let count = self.points.get(&point).copied().unwrap_or(0);
            text += &format!("{count:>9}  {point}\n");
            if count == 0 {
                wrong.push(format!("empty: {point}"));
            }
        }
        text += &format!("\n{} cells\n", CaptureCoverage::cells());
        (text, wrong)
    }
}

/// The points that every set of 200 seeds has.
fn required() -> Vec<String> {
    [faults::required(), events::required(), trials::required()].concat()
}
