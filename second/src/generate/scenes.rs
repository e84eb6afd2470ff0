//! Short scripts for what chance alone would seldom bring about.

use super::{bursts, configs, Generator};
use crate::bridge::{ConfigSlot, Owner, DECODE_BITS};
use crate::bridge::{WORD_BUSES, WORD_DECODE, WORD_DISABLE, WORD_MASK};

impl Generator {
    pub fn scene(&mut self) {
        if !self.machine.bridge.link_is_up() {
            self.link(true);
        }
        match self.random.below(19) {
            0 => self.everything_open_then_drop(),
            1 => self.whole_page(),
            2 => self.poison_then_failure(),
            3 => self.timeout_then_late(),
            4 => self.two_failures(),
            5 => self.every_tag_taken(),
            6 => self.resting_tag_and_page(),
            7 => self.registers(),
            8 => self.drop_and_return(),
            9 => self.overflow(),
            10 => self.queue_life(),
            11 => self.broken_messages(),
            12 => self.error_line(),
            13 => self.several_lives(),
            14 => self.waiting_answer(),
            15 => self.local_while_down(),
            16 | 17 => self.devices(),
            _ => self.set_buses(),
        }
    }

    pub(super) fn read_word(&mut self) {
        let settings = self.machine.bridge.settings();
        let burst = bursts::one_word(settings, &mut self.random);
        self.read(burst);
    }

    pub(super) fn read_page(&mut self) {
        let settings = self.machine.bridge.settings();
        let burst = bursts::whole_page(settings, &mut self.random);
        self.read(burst);
    }

    fn routed(&mut self) {
        let access = configs::routed(&self.machine.bridge, &mut self.random);
        self.config(access);
    }

    /// A link drop with all slots open; sometimes some are answered before.
    fn everything_open_then_drop(&mut self) {
        self.link(false);
        self.release_all();
        self.local_write(WORD_BUSES, 0x00FF_0100);
        self.link(true);
        for _ in 0..9 {
            self.read_word();
        }
        for _ in 0..3 {
            if self.machine.bridge.config_slot() == ConfigSlot::Free {
                self.routed();
            }
        }
        if self.random.chance(30) {
            self.answer();
        }
        self.link(false);
        self.late_answer();
        if self.random.chance(70) {
            self.link(true);
        }
    }

    /// A whole page, read and answered in full.
    fn whole_page(&mut self) {
        self.read_page();
        for _ in 0..80 {
            if self.far.live.is_empty() {
                break;
            }
            self.answer_request(0);
        }
        self.release_all();
    }

    fn last_memory_request(&self) -> Option<usize> {
        let list = &self.far.live;
        list.iter()
            .rposition(|o| o.kind == super::far::Kind::Memory)
    }

    fn poison_then_failure(&mut self) {
        self.read_page();
        let Some(index) = self.last_memory_request() else {
            return;
        };
        if self.far.live[index].words_left() < 2 {
            return;
        }
        self.poison_words(index, 1);
        let limit = self.machine.bridge.settings().time_limit;
        if limit <= 300 && self.random.chance(30) {
            return self.ticks(limit);
        }
        if let Some(index) = self.last_memory_request() {
            self.fail(index);
        }
    }

    fn timeout_then_late(&mut self) {
        let limit = self.machine.bridge.settings().time_limit;
        if limit > 3000 && !self.random.chance(5) {
            return;
        }
        self.read_word();
        if self.random.chance(40) {
            self.routed();
        }
        if limit > 1 {
            self.ticks(limit - 1);
        }
        if !self.full && self.random.chance(40) {
            self.refused_tick();
        }
        if self.random.chance(30) {
            self.answer();
        }
        self.ticks(1);
        for _ in 0..self.random.between(1, 3) {
            self.late_answer();
        }
    }

    /// The store is too short, so the counter does not step.
    fn refused_tick(&mut self) {
        let whole = self.machine.store.len() as u32;
        self.ticks_with(whole.min(32_767), 1);
    }

    /// A later piece fails before an earlier one, each in its own way.
    fn two_failures(&mut self) {
        self.read_page();
        for _ in 0..self.random.between(2, 4) {
            if let Some(index) = self.last_memory_request() {
                match self.random.chance(70) {
                    true => self.fail(index),
                    false => self.poison(index),
                }
            }
        }
        for _ in 0..40 {
            if self.far.live.is_empty() {
                break;
            }
            self.answer_request(0);
        }
    }

    fn every_tag_taken(&mut self) {
        self.release_all();
        for _ in 0..8 {
            match self.machine.bridge.free_tags().len() {
                0 => break,
                1..=3 => self.read_word(),
                _ => self.read_page(),
            }
        }
        self.release(8);
        self.routed();
        if self.random.chance(80) {
            self.release(8);
            self.devices_without_a_tag();
        }
        self.read_word();
        if self.random.chance(40) {
            self.link(false);
        }
    }

    fn resting_tag_and_page(&mut self) {
        let limit = self.machine.bridge.settings().time_limit;
        if limit > 300 {
            return;
        }
        self.release_all();
        self.read_word();
        self.ticks(limit);
        self.release_all();
        self.read_page();
    }

    /// The mask and the line, then decode bits cleared.
    fn registers(&mut self) {
        self.release(8);
        self.local_write(WORD_MASK, DECODE_BITS);
        let off = self.random.pick(&[0, 0, 0x100]);
        self.local_write(WORD_DISABLE, off);
        let any = self.random.word();
        let ones = self.random.pick(&[DECODE_BITS, u32::MAX, any]);
        self.local_write(WORD_DECODE, ones);
    }

    /// A drop with whatever is open, sometimes with late answers after it.
    fn drop_and_return(&mut self) {
        let pieces = self.machine.bridge.pieces();
        let open = pieces.iter().any(|p| matches!(p.owner, Owner::Read(_)));
        if !open {
            self.read_word();
        }
        self.link(false);
        for _ in 0..self.random.between(0, 2) {
            self.late_answer();
        }
        if self.random.chance(30) {
            self.release(8);
            self.local_write(WORD_DECODE, u32::MAX);
            self.link(false);
        }
        self.link(true);
        if self.random.chance(50) {
            self.late_answer();
        }
    }
}
