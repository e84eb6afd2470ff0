//! Runs of ticks: T is 65,535, so that timeouts and resting tags need them.

use super::Generator;
use crate::generate::bursts;
use crate::traffic::Event;

impl Generator {
    /// Requests time out, answers come too early to matter or too late, and a
    /// whole page must wait for the resting tags until the link drops.
    pub(super) fn timeouts(&mut self) {
        self.link(false);
        self.release_all();
        self.link(true);
        for _ in 0..self.random.between(1, 3) {
            self.read_word();
        }
        if self.random.chance(60) {
            let settings = self.machine.bridge.settings();
            let burst = bursts::lawful(settings, &mut self.random);
            self.read(burst);
        }
        if self.random.chance(60) {
            self.ask(2);
        }
        if self.random.chance(50) {
            self.answer();
        }
        self.run_of_ticks();
        for _ in 0..self.random.between(1, 4) {
            self.late_answer();
        }
        self.release_all();
        self.read_page();
        if self.random.chance(50) {
            self.read_word();
        }
        if self.random.chance(60) {
            self.link(false);
            self.release_all();
            self.link(true);
            self.read_page();
        }
    }

    fn run_of_ticks(&mut self) {
        let limit = self.machine.bridge.settings().time_limit;
        let before = self.random.between(1, limit - 2);
        self.packed_ticks(before);
        // A request of another age, and an answer in the middle.
        if self.random.chance(50) {
            self.read_word();
        }
        if self.random.chance(50) {
            self.answer();
        }
        self.packed_ticks(limit - 1 - before);
        // Just in time.
        if self.random.chance(60) {
            self.answer();
        }
        self.packed_ticks(1);
    }

    fn packed_ticks(&mut self, repeat: u32) {
        let store = self.store();
        self.push(Event::Tick { store, repeat });
    }
}
