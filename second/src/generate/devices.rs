//! Devices above 0, on every kind of bus (02, request A4).

use super::{configs, Generator};
use crate::bridge::{Access, ConfigSlot, AREA_BYTES, CONFIG_SLOT, WORD_BUSES};
use crate::traffic::Event;

impl Generator {
    /// Bus numbers of some kind, then accesses on and beside them, with the link
    /// up and half of the time with it down; in the end bus numbers that make
    /// sense.
    pub(super) fn devices(&mut self) {
        self.number_buses();
        match self.random.chance(40) {
            true => self.walk(),
            false => self.some_devices(4, 8),
        }
        if self.random.chance(50) {
            self.link(false);
            self.some_devices(7, 12);
            self.link(true);
        }
        if self.local_words_ready() {
            self.set_buses();
        }
    }

    /// With no tag free: on the secondary bus 11 comes before 7.
    pub(super) fn devices_without_a_tag(&mut self) {
        if self.machine.bridge.config_slot() != ConfigSlot::Free {
            return; // to finish it would free its tag
        }
        self.local_write(WORD_BUSES, 1 << 8 | self.last_bus() << 16);
        for _ in 0..self.random.between(3, 6) {
            let access = configs::on_any_bus(&self.machine.bridge, &mut self.random);
            if self.config(access).number() == 0 {
                self.release(CONFIG_SLOT); // a local one
            }
        }
    }

    fn last_bus(&self) -> u32 {
        (1 << self.machine.bridge.settings().bus_bits) - 1
    }

    /// A range below a switch; secondary above subordinate; primary is secondary;
    /// primary inside the range. All within the space, so that none is lost.
    fn number_buses(&mut self) {
        if !self.local_words_ready() {
            return;
        }
        let most = self.last_bus();
        let low = self.random.between(0, most - 1);
        let high = self.random.between(low + 1, most);
        let last = self.random.between(high, most);
        let [primary, secondary, subordinate] = match self.random.below(12) {
            0..=2 => [0, high, low],
            3 | 4 => [low, low, last],
            5..=7 => [high, low, last],
            // With one bit no other numbers lead to a type 1 request.
            8.. if most == 1 => [0, 0, 1],
            8 => [0, high, last],
            _ => [0, 1, last],
        };
        let buses = primary | secondary << 8 | subordinate << 16;
        self.local_write(WORD_BUSES, buses);
    }

    fn some_devices(&mut self, least: u32, most: u32) {
        for _ in 0..self.random.between(least, most) {
            let access = configs::on_any_bus(&self.machine.bridge, &mut self.random);
            self.ask_device(access);
        }
    }

    /// One device after another on one bus, as boot software asks; often on the
    /// secondary bus, where it finds but one.
    fn walk(&mut self) {
        let mut first = configs::on_any_bus(&self.machine.bridge, &mut self.random);
        if self.random.chance(50) && self.local_words_ready() {
            self.local_write(WORD_BUSES, 1 << 8 | self.last_bus() << 16);
            first = configs::on_secondary(&self.machine.bridge, &first);
        }
        let from = self.random.between(0, 31);
        for step in 0..self.random.between(8, 14) {
            let access = configs::later_device(&first, from + step);
            self.ask_device(access);
        }
    }

    /// An accepted access is finished somehow and mostly taken.
    fn ask_device(&mut self, access: Access) {
        if self.machine.bridge.config_slot() != ConfigSlot::Free && self.random.chance(85) {
            self.finish_config();
        }
        if !self.full && self.random.chance(3) {
            let area = AREA_BYTES as u32 - 1;
            self.push(Event::Config { access, area });
        }
        let before = self.far.live.len();
        let outcome = self.config(access);
        if self.far.live.len() > before {
            self.finish_device(before);
        }
        if outcome.number() == 0 && self.random.chance(85) {
            self.release(CONFIG_SLOT);
        }
    }

    fn finish_device(&mut self, index: usize) {
        let limit = self.machine.bridge.settings().time_limit;
        match self.random.below(16) {
            // UR, CRS or CA.
            0..=3 => self.fail_with(index, &[1, 2, 4]),
            4 if limit <= 300 => self.ticks(limit),
            _ => self.finish_somehow(index),
        }
    }
}
