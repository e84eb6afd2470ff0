//! Scripts around the error queue (02, request A1).

use super::messages::CODES;
use super::{configs, Generator};
use crate::bridge::{BIT_CORRECTABLE, BIT_FATAL, BIT_NON_FATAL};
use crate::bridge::{CONFIG_SLOT, QUEUE_DEPTH};
use crate::bridge::{DECODE_BITS, ERROR_BITS, LINE_OFF, OVERFLOW};
use crate::bridge::{WORD_DECODE, WORD_DISABLE, WORD_ERRORS, WORD_MASK, WORD_STATUS};

/// Bits 9 to 11, each alone.
const EACH_BIT: [u32; 3] = [1 << BIT_CORRECTABLE, 1 << BIT_NON_FATAL, 1 << BIT_FATAL];
/// Strobes of the byte with bits 9 to 11, of that with the flag, of the others.
const ERROR_BYTE: u32 = 2;
const FLAG_BYTE: u32 = 4;
const WHOLE: u32 = 15;

impl Generator {
    fn queued(&self) -> usize {
        self.machine.bridge.errors().entries().len()
    }

    /// A write to 154, with any data and any strobes, sometimes by another
    /// device, seldom refused.
    pub fn remove_oldest(&mut self) {
        if !self.local_words_ready() {
            return;
        }
        let access = configs::removal(&self.machine.bridge, &mut self.random);
        self.config(access);
        if !self.full && self.random.chance(5) {
            // The slot is not free, so this one removes nothing.
            self.config(access);
        }
        self.release(CONFIG_SLOT);
    }

    /// At most so many writes to 154; then the queue may still hold some.
    pub fn remove_all(&mut self, most: usize) {
        for _ in 0..most {
            if self.queued() == 0 {
                break;
            }
            self.remove_oldest();
        }
    }

    /// A write to 138 that means bits 9 to 11, and others with them.
    fn clear_error_bits(&mut self) {
        if !self.local_words_ready() {
            return;
        }
        let one = self.random.pick(&EACH_BIT);
        let data = self.random.pick(&[u32::MAX, ERROR_BITS, one, !ERROR_BITS]);
        let strobes = match self.random.below(5) {
            0 => ERROR_BYTE,
            1 => WHOLE - ERROR_BYTE,
            _ => WHOLE,
        };
        self.strobed_write(WORD_DECODE, data, strobes);
    }

    /// A write to 148: the flag, in a chosen byte or not, or all but the flag.
    fn write_status(&mut self) {
        if !self.local_words_ready() {
            return;
        }
        let (data, strobes) = match self.random.below(6) {
            0..=2 => (self.random.pick(&[OVERFLOW, u32::MAX]), WHOLE),
            3 => (OVERFLOW, FLAG_BYTE),
            4 => (u32::MAX, self.random.pick(&[WHOLE - FLAG_BYTE, 0, 3])),
            _ => (!OVERFLOW, WHOLE),
        };
        self.strobed_write(WORD_STATUS, data, strobes);
    }

    fn read_error_words(&mut self) {
        for word in [WORD_STATUS, WORD_ERRORS, WORD_DECODE] {
            if self.local_words_ready() && self.random.chance(60) {
                self.local_read(word);
            }
        }
    }

    fn write_mask(&mut self) {
        if self.local_words_ready() {
            let one = self.random.pick(&EACH_BIT);
            let data = self
                .random
                .pick(&[ERROR_BITS, one, one, !ERROR_BITS, u32::MAX]);
            self.local_write(WORD_MASK, data);
        }
    }

    /// The queue filled to its end and beyond, mostly with codes that leave the
    /// bit of the dropped message to that message, often with one code alone.
    pub(super) fn overflow(&mut self) {
        if self.random.chance(80) {
            self.remove_all(6);
            self.clear_error_bits();
        }
        let dropped = self.random.pick(&CODES);
        let mut codes = CODES.to_vec();
        match self.random.below(5) {
            0 => {}
            1 | 2 => codes.retain(|c| *c != dropped),
            _ => codes = vec![self.random.pick(&CODES)],
        }
        for _ in self.queued()..QUEUE_DEPTH {
            self.message_of(&codes);
        }
        self.read_error_words();
        for _ in 0..self.random.between(1, 2) {
            self.message(dropped);
        }
        for _ in 0..self.random.between(1, 3) {
            self.with_a_full_queue();
        }
        let few = self.random.between(1, 4) as usize;
        match self.random.below(5) {
            0 | 1 => self.after_overflow(QUEUE_DEPTH + 4, dropped),
            2 | 3 => self.after_overflow(few, dropped),
            _ => {}
        }
    }

    /// Some or all entries are removed; whatever the flag was, it stays.
    fn after_overflow(&mut self, removed: usize, dropped: u8) {
        if !self.machine.bridge.errors().overflowed() {
            self.message(dropped);
        }
        self.remove_all(removed);
        for _ in 0..self.random.between(2, 5) {
            match self.random.below(6) {
                0 => self.read_error_words(),
                1 | 2 => self.clear_error_bits(),
                3 | 4 => self.write_status(),
                _ => {
                    self.link(false);
                    self.link(true);
                }
            }
        }
    }

    fn with_a_full_queue(&mut self) {
        match self.random.below(6) {
            0 | 1 => self.write_status(),
            2 => self.clear_error_bits(),
            3 => {
                // Room for one more, and the flag stays.
                self.remove_oldest();
                self.message_of(&CODES);
                self.message_of(&CODES);
            }
            4 => {
                self.link(false);
                self.message_of(&CODES);
                self.read_error_words();
                self.link(true);
            }
            _ => self.read_error_words(),
        }
    }

    /// A few messages, then whatever can be done with the queue; in the end it
    /// is empty and its bits are cleared.
    pub(super) fn queue_life(&mut self) {
        for _ in 0..self.random.between(1, 3) {
            self.message_of(&CODES);
        }
        for _ in 0..self.random.between(3, 8) {
            self.queue_step();
        }
        self.remove_all(8);
        if self.random.chance(50) {
            self.remove_oldest();
        }
        self.clear_error_bits();
        self.read_error_words();
    }

    fn queue_step(&mut self) {
        match self.random.below(10) {
            0..=2 => self.remove_oldest(),
            3 => self.message_of(&CODES),
            4 | 5 => self.clear_error_bits(),
            6 => self.write_status(),
            7 => self.read_error_words(),
            8 => self.write_mask(),
            _ => self.some_link(),
        }
    }

    /// Broken messages, with the link up, and all sorts with it down: they leave
    /// no trace, while the queue stays and can be emptied.
    pub(super) fn broken_messages(&mut self) {
        for _ in 0..self.random.between(3, 8) {
            self.broken_message();
        }
        if self.random.chance(60) {
            self.message_of(&CODES);
        }
        self.link(false);
        for _ in 0..self.random.between(4, 9) {
            match self.random.below(10) {
                0 | 1 => self.message_of(&CODES),
                2 => self.remove_oldest(),
                _ => self.broken_message(),
            }
        }
        self.link(true);
        self.message_of(&CODES);
    }

    /// The line high through bits 9 to 11 alone.
    pub(super) fn error_line(&mut self) {
        self.remove_all(3);
        if !self.local_words_ready() {
            return;
        }
        self.local_write(WORD_DECODE, DECODE_BITS);
        self.local_write(WORD_DISABLE, 0);
        self.write_mask();
        for _ in 0..self.random.between(1, 3) {
            self.message_of(&CODES);
        }
        if self.local_words_ready() && self.random.chance(30) {
            self.local_write(WORD_DISABLE, LINE_OFF);
        }
        self.remove_all(3);
        self.clear_error_bits();
    }
}
