//! Accesses to local words, each with its release.

use super::{configs, Generator};
use crate::bridge::{ConfigSlot, CONFIG_SLOT, WORD_BUSES};

impl Generator {
    pub fn set_buses(&mut self) {
        let buses = configs::bus_numbers(&self.machine.bridge, &mut self.random);
        self.local_write(WORD_BUSES, buses);
    }

    /// Writes a local word and takes the answer.
    pub fn local_write(&mut self, word: u32, data: u32) {
        self.strobed_write(word, data, 15);
    }

    pub fn strobed_write(&mut self, word: u32, data: u32, strobes: u32) {
        let access = configs::local_write(&self.machine.bridge, word, data, strobes);
        self.config(access);
        self.release(CONFIG_SLOT);
    }

    pub fn local_read(&mut self, word: u32) {
        let access = configs::local_read(&self.machine.bridge, word);
        self.config(access);
        self.release(CONFIG_SLOT);
    }

    /// Whether local words can be written now; what holds the configuration
    /// slot is finished first. A primary bus of 2^n or more is out of reach.
    pub(super) fn local_words_ready(&mut self) -> bool {
        if self.machine.bridge.config_slot() != ConfigSlot::Free {
            self.finish_config();
        }
        let bridge = &self.machine.bridge;
        let primary = bridge.registers()[0] & 0xFF;
        let reached = primary >> bridge.settings().bus_bits == 0;
        reached && bridge.config_slot() == ConfigSlot::Free
    }
}
