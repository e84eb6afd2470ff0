//! Ticks and the link.

use super::complete::clear;
use super::tables::Owner;
use super::words::{CONFIG_TIMEOUT, LINK_DOWN, TIMEOUT};
use super::{Answer, Bridge, Response, CONFIG_SLOT, READ_SLOTS, STORE_BYTES};

/// The members of a set, lowest first.
#[inline]
fn members(mut set: u32) -> impl Iterator<Item = u32> {
    std::iter::from_fn(move || {
        let lowest = (set != 0).then(|| set.trailing_zeros());
        set &= set.wrapping_sub(1);
        lowest
    })
}

impl Bridge {
    /// Nothing can be due before `due`, so most ticks only step.
    #[inline]
    pub fn tick(&mut self, store: &mut [u8]) -> Answer {
        let Some(store) = store.first_chunk_mut::<STORE_BYTES>() else {
            return Answer::refused(8);
        };
        self.now = self.now.wrapping_add(1);
        if self.now == self.due && self.open != 0 {
            self.expire(store);
        }
        Answer::DONE
    }

    /// Closes each request of age T; their tags rest. The oldest of those that
    /// stay says when to look again.
    #[cold]
    fn expire(&mut self, store: &mut [u8; STORE_BYTES]) {
        let mut oldest = 0;
        for tag in members(self.open) {
            let piece = self.pieces[tag as usize];
            let age = self.now.wrapping_sub(piece.born);
            if age < self.settings.time_limit {
                oldest = oldest.max(age);
                continue;
            }
            self.open &= !(1 << tag);
            if piece.owner == Owner::Read {
                self.decode |= TIMEOUT;
                self.slots[usize::from(piece.slot)].fail(piece.rank, Response::Slverr);
                self.piece_closed(piece.slot, store);
            } else {
                self.decode |= CONFIG_TIMEOUT;
                self.finish_config(Response::Slverr, 0);
            }
        }
        self.due = self
            .now
            .wrapping_add(self.settings.time_limit)
            .wrapping_sub(oldest);
    }

    #[inline(never)]
    pub fn link(&mut self, up: bool, store: &mut [u8]) -> Answer {
        let Some(store) = store.first_chunk_mut::<STORE_BYTES>() else {
            return Answer::refused(8);
        };
        match (self.link_up, up) {
            (true, false) => self.drop_link(store),
            (false, true) => self.session = self.session.wrapping_add(1),
            _ => {}
        }
        self.link_up = up;
        Answer::DONE
    }

    /// What is open ends as SLVERR with zeros; all tags are free, resting ones
    /// too.
    #[cold]
    fn drop_link(&mut self, store: &mut [u8; STORE_BYTES]) {
        self.decode |= LINK_DOWN;
        self.free = u32::MAX;
        self.open = 0;
        let unfinished = self.used & !self.finished;
        for slot in members(unfinished & ((1 << READ_SLOTS) - 1)) {
            let read = &mut self.slots[slot as usize];
            read.response = Response::Slverr;
            clear(store, slot as usize, read.length);
        }
        self.finished = self.used;
        if unfinished >> CONFIG_SLOT & 1 == 1 {
            self.finish_config(Response::Slverr, 0);
        }
    }
}
