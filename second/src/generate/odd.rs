//! Completions that are wrong, late, failing, poisoned or malformed.

use super::far::{packet, Kind, Owed};
use super::headers::damage_completion;
use super::Generator;
use crate::header::Completion;
use crate::traffic::Event;

impl Generator {
    pub fn odd_answer(&mut self) {
        match self.random.below(12) {
            0 => self.late_answer(),
            1 => self.garbage(),
            _ => self.odd_answer_to_request(),
        }
    }

    /// An answer to a request whose tag is closed.
    pub fn late_answer(&mut self) {
        if self.far.stale.is_empty() {
            return self.garbage();
        }
        let index = self.random.below(self.far.stale.len() as u64) as usize;
        let owed = self.far.stale.swap_remove(index);
        if owed.left == 0 {
            return;
        }
        let words = owed.some_words(&mut self.random);
        let value = owed.right(words, &mut self.random);
        self.send(&value);
    }

    fn garbage(&mut self) {
        let count = self.random.between(0, 40) as usize;
        let mut bytes = self.random.bytes(count);
        if let Some(first) = bytes.first_mut() {
            *first = self.random.pick(&[*first, 0x0A, 0x4A]);
        }
        let store = self.store();
        self.push(Event::Completion { store, bytes });
    }

    fn odd_answer_to_request(&mut self) {
        let Some(index) = self.far.choose(&mut self.random) else {
            return self.garbage();
        };
        let owed = self.far.live[index].clone();
        match self.random.below(10) {
            0 | 1 => self.poison(index),
            2..=4 => self.fail(index),
            5 | 6 => self.malformed(&owed),
            _ => self.unexpected(&owed),
        }
    }

    /// Poisoned data of the right shape.
    pub fn poison(&mut self, index: usize) {
        let owed = self.far.live[index].clone();
        let words = owed.some_words(&mut self.random);
        self.poison_words(index, words);
    }

    pub fn poison_words(&mut self, index: usize, words: u32) {
        let owed = self.far.live[index].clone();
        let mut value = owed.right(words, &mut self.random);
        value.poisoned = value.data;
        self.far.advance(index, owed.useful(words));
        self.send(&value);
    }

    /// A failing status, also one that is not expected.
    pub fn fail(&mut self, index: usize) {
        self.fail_with(index, &[1, 1, 2, 3, 4, 4, 5, 6, 7]);
    }

    /// One of these statuses.
    pub(super) fn fail_with(&mut self, index: usize, statuses: &[u32]) {
        let owed = self.far.live[index].clone();
        let status = self.random.pick(statuses);
        let value = owed.status(status, &mut self.random);
        self.send(&value);
    }

    fn malformed(&mut self, owed: &Owed) {
        let words = owed.some_words(&mut self.random).min(64);
        let value = match self.random.chance(60) {
            true => owed.right(words, &mut self.random),
            false => owed.status(1, &mut self.random),
        };
        let mut bytes = packet(&value, &mut self.random);
        damage_completion(&mut bytes, &mut self.random);
        let store = self.store();
        self.push(Event::Completion { store, bytes });
    }

    /// Well formed, but some test of 01 does not hold.
    pub fn unexpected(&mut self, owed: &Owed) {
        let words = owed.some_words(&mut self.random).min(64);
        let mut value = owed.right(words, &mut self.random);
        match self.random.below(9) {
            0 => value.count = self.random.between(1, 4096),
            1 => value.count = (value.count % 4096) + 1,
            2 => value.lower = (value.lower + self.random.pick(&[1, 4, 64])) % 128,
            3 => value.requester ^= 1 << self.random.below(16),
            4 => value.tag = self.random.between(0, 255),
            5 => value.tag ^= 32 << self.random.below(3),
            6 => self.wrong_kind(&mut value, owed),
            7 => {
                value.data = true;
                value.length = owed.words_left().clamp(1, 1023) + 1;
            }
            _ => {
                value.poisoned = value.data;
                value.lower = (value.lower + 1) % 128;
            }
        }
        self.send(&value);
    }

    /// Data where none is due, or none where it is.
    fn wrong_kind(&mut self, value: &mut Completion, owed: &Owed) {
        match owed.kind {
            Kind::Memory | Kind::ConfigRead => {
                value.data = false;
                value.length = 0;
            }
            Kind::ConfigWrite => {
                value.data = true;
                value.length = 1;
            }
        }
    }

    pub fn send(&mut self, value: &Completion) {
        let bytes = packet(value, &mut self.random);
        let store = self.store();
        self.push(Event::Completion { store, bytes });
    }
}
