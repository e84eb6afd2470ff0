//! Looks and releases.

use super::Generator;
use crate::bridge::CONFIG_SLOT;
use crate::traffic::Event;

impl Generator {
    /// The slots in which something is finished.
    pub(super) fn finished_slots(&self) -> Vec<u32> {
        let bridge = &self.machine.bridge;
        let reads = bridge.reads().iter().filter(|r| r.finished.is_some());
        let mut list: Vec<u32> = reads.map(|r| r.slot).collect();
        if bridge.config_slot().is_finished() {
            list.push(CONFIG_SLOT);
        }
        list
    }

    pub(super) fn take_finished(&mut self) {
        let finished = self.finished_slots();
        if finished.is_empty() {
            return self.answer();
        }
        let slot = self.random.pick(&finished);
        if self.random.chance(75) {
            let store = self.store();
            self.push(Event::Look { store, slot });
        }
        if self.random.chance(90) {
            self.release(slot);
        }
    }

    pub fn release(&mut self, slot: u32) {
        let store = self.store();
        self.push(Event::Release { store, slot });
    }

    pub fn release_all(&mut self) {
        for slot in self.finished_slots() {
            self.release(slot);
        }
    }

    pub(super) fn odd_take(&mut self) {
        let any = self.random.word();
        let slot = match self.random.below(8) {
            0 => self.random.pick(&[9, 15, 16, 255, u32::MAX, any]),
            _ => self.random.between(0, 8),
        };
        let whole = self.machine.store.len() as u32;
        let store = match self.random.below(12) {
            0 if !self.full => whole.min(32_767),
            _ => self.store(),
        };
        match self.random.chance(60) {
            true => self.push(Event::Look { store, slot }),
            false => self.push(Event::Release { store, slot }),
        };
    }
}
