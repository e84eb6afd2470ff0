//! Answers that wait while the link goes down and up (02, request A2).

use super::{configs, Generator};
use crate::bridge::{ConfigSlot, CONFIG_SLOT, STORE_BYTES, WORD_BUSES};
use crate::traffic::Event;

impl Generator {
    /// A few lives, each with up to two answers that wait; all are taken in the
    /// end.
    pub(super) fn several_lives(&mut self) {
        self.release_all();
        for _ in 0..self.random.between(1, 4) {
            for _ in 0..self.random.between(0, 2) {
                self.leave_an_answer();
            }
            self.down();
            self.up();
        }
        for _ in 0..self.random.between(0, 2) {
            self.refused_release();
        }
        self.release_all();
    }

    /// One answer, finished in any way, waits over one life or more.
    pub(super) fn waiting_answer(&mut self) {
        self.release_all();
        match self.random.chance(60) {
            true => self.leave_routed(),
            false => self.leave_an_answer(),
        }
        if self.random.chance(30) {
            // A repeated up is no new life.
            self.link(true);
        }
        for _ in 0..self.random.between(1, 3) {
            self.down();
            self.up();
        }
        self.leave_an_answer();
        self.release_all();
    }

    /// Local accesses with the link down; the last is taken with the link up.
    pub(super) fn local_while_down(&mut self) {
        self.down();
        for _ in 0..self.random.between(1, 2) {
            self.leave_local();
            if self.random.chance(60) {
                self.release(CONFIG_SLOT);
            }
        }
        self.leave_local();
        for _ in 0..self.random.between(1, 2) {
            self.up();
            if self.random.chance(30) {
                self.down();
            }
        }
        self.release(CONFIG_SLOT);
    }

    /// Before the link's first life, mostly kept until it is up.
    pub(super) fn local_before_the_first_life(&mut self) {
        self.leave_local();
        if self.random.chance(30) {
            self.link(false);
        }
        if self.random.chance(30) {
            self.release(CONFIG_SLOT);
        }
    }

    /// An access that is finished, or that the drop will finish.
    fn leave_an_answer(&mut self) {
        match self.random.below(5) {
            0 => self.leave_local(),
            1 => self.leave_routed(),
            _ => self.leave_read(),
        }
    }

    fn leave_local(&mut self) {
        if self.machine.bridge.config_slot() == ConfigSlot::Free {
            let access = configs::local(&self.machine.bridge, &mut self.random);
            self.config(access);
        }
    }

    fn leave_routed(&mut self) {
        if self.machine.bridge.config_slot() != ConfigSlot::Free {
            return;
        }
        if self.random.chance(70) {
            // Primary bus 0, all others below it.
            let most = (1 << self.machine.bridge.settings().bus_bits) - 1;
            self.local_write(WORD_BUSES, 1 << 8 | most << 16);
        }
        let access = configs::routed(&self.machine.bridge, &mut self.random);
        let before = self.far.live.len();
        self.config(access);
        if self.far.live.len() == before {
            return;
        }
        match self.random.chance(40) {
            // UR, which is all ones for a configuration read.
            true => self.fail_with(before, &[1]),
            false => self.finish_somehow(before),
        }
    }

    fn leave_read(&mut self) {
        let before = self.far.live.len();
        self.read_word();
        if self.far.live.len() > before {
            self.finish_somehow(before);
        }
    }

    /// The request is answered, fails, times out or stays open.
    pub(super) fn finish_somehow(&mut self, index: usize) {
        let limit = self.machine.bridge.settings().time_limit;
        match self.random.below(10) {
            0..=2 => self.answer_request(index),
            3..=5 => self.fail(index),
            6 => self.poison(index),
            7 if limit <= 300 => self.ticks(limit),
            _ => {}
        }
    }

    /// The link goes down; now and then that is refused first, or said again.
    fn down(&mut self) {
        if self.random.chance(15) {
            self.refused_link(false);
        }
        self.link(false);
        if self.random.chance(15) {
            self.link(false);
        }
        if self.random.chance(20) {
            self.leave_local();
        }
    }

    /// The link goes up; now and then that is refused before or after, or said
    /// again.
    fn up(&mut self) {
        if self.random.chance(20) {
            self.refused_link(true);
        }
        if self.random.chance(95) {
            self.link(true);
        }
        match self.random.below(6) {
            0 => self.link(true),
            1 => self.refused_link(true),
            _ => {}
        }
    }

    /// The length of a store that is one byte too short.
    fn short_store(&self) -> u32 {
        let whole = self.machine.store.len() as u32;
        whole.min(STORE_BYTES as u32 - 1)
    }

    fn refused_link(&mut self, up: bool) {
        if !self.full {
            let store = self.short_store();
            self.push(Event::Link { store, up });
        }
    }

    /// Of something finished with a store that is too short, or of any slot.
    fn refused_release(&mut self) {
        let finished = self.finished_slots();
        let slot = match finished.is_empty() {
            true => self.random.between(0, 10),
            false => self.random.pick(&finished),
        };
        let store = match self.full || finished.is_empty() {
            true => self.store(),
            false => self.short_store(),
        };
        self.push(Event::Release { store, slot });
    }
}
