//! Demand 3 by trial: an honest far side, and the three claims checked on many
//! seeds (bytes, deadline with its OKAY half, alike). Beside them: session numbers
//! are those of the lives in which the accesses were accepted.

mod alike;
mod claims;
mod honest;
mod lists;
mod lives;

pub use alike::alike;
pub use honest::honest;

use crate::say;
use crate::traffic::Event;

/// What the trials have seen, so that an empty success shows.
#[derive(Clone, Copy, Debug, Default)]
pub struct Figures {
    pub events: u64,
    pub reads: u64,
    pub configs: u64,
    /// Those of them that are to a device above 0.
    pub devices: u64,
    pub okay_reads: u64,
    pub okay_bytes: u64,
    pub failed_reads: u64,
    /// Accesses whose completions were all good and in time.
    pub well: u64,
    pub timeouts: u64,
    pub lost: u64,
    pub late: u64,
    pub unexpected: u64,
    pub drops: u64,
    pub reused_tags: u64,
    pub messages: u64,
    pub removed: u64,
    /// Answers taken, whose session numbers were checked.
    pub taken: u64,
    pub taken_later: u64,
    pub alike_pairs: u64,
    /// Pairs that begin with two messages or more, which word 154 does not show.
    pub alike_pairs_queued: u64,
    /// Pairs that begin with other session counters.
    pub alike_pairs_other: u64,
    pub alike_removed: u64,
    /// Answers taken from both, and those with other session numbers.
    pub alike_taken: u64,
    pub alike_taken_other: u64,
    pub alike_events: u64,
    pub alike_reads: u64,
}

impl Figures {
    pub fn add(&mut self, other: &Figures) {
        self.events += other.events;
        self.reads += other.reads;
        self.configs += other.configs;
        self.devices += other.devices;
        self.okay_reads += other.okay_reads;
        self.okay_bytes += other.okay_bytes;
        self.failed_reads += other.failed_reads;
        self.well += other.well;
        self.timeouts += other.timeouts;
        self.lost += other.lost;
        self.late += other.late;
        self.unexpected += other.unexpected;
        self.drops += other.drops;
        self.reused_tags += other.reused_tags;
        self.messages += other.messages;
        self.removed += other.removed;
        self.taken += other.taken;
        self.taken_later += other.taken_later;
        self.alike_pairs += other.alike_pairs;
        self.alike_pairs_queued += other.alike_pairs_queued;
        self.alike_pairs_other += other.alike_pairs_other;
        self.alike_removed += other.alike_removed;
        self.alike_taken += other.alike_taken;
        self.alike_taken_other += other.alike_taken_other;
        self.alike_events += other.alike_events;
        self.alike_reads += other.alike_reads;
    }

    /// Every figure with its name.
    pub fn list(&self) -> [(&'static str, u64); 26] {
        [
            ("events with an honest far side", self.events),
            ("accepted memory reads", self.reads),
            ("accepted routed configuration accesses", self.configs),
            ("of them to a device above 0", self.devices),
            ("reads answered OKAY, bytes compared", self.okay_reads),
            ("bytes compared", self.okay_bytes),
            ("reads answered otherwise", self.failed_reads),
            ("accesses with good completions for all bytes", self.well),
            ("requests timed out", self.timeouts),
            ("completions lost", self.lost),
            ("completions after their request timed out", self.late),
            ("completions not expected", self.unexpected),
            ("link drops", self.drops),
            ("tags used again", self.reused_tags),
            ("error messages accepted", self.messages),
            ("of them removed again", self.removed),
            ("answers taken, session numbers checked", self.taken),
            ("of them in a later life", self.taken_later),
            ("pairs of bridges for alike", self.alike_pairs),
            ("of them with two messages or more", self.alike_pairs_queued),
            ("pairs with other session counters", self.alike_pairs_other),
            ("events compared for alike", self.alike_events),
            ("reads accepted among them", self.alike_reads),
            ("messages removed among them", self.alike_removed),
            ("answers taken among them", self.alike_taken),
            ("of them with other session numbers", self.alike_taken_other),
        ]
    }
}

/// A claim that did not hold.
#[derive(Debug)]
pub struct Counterexample {
    pub claim: String,
    pub setting: String,
    pub events: Vec<Event>,
}

impl Counterexample {
    pub fn print(&self, seed: u64) {
        say!("seed {seed}: {}", self.claim);
        say!("{}", self.setting);
        for (index, event) in self.events.iter().enumerate() {
            say!("{index} {event:x?}");
        }
    }
}
