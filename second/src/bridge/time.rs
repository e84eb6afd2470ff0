//! Ticks and the link (01, "Ticks and the link").

use super::complete::clear_slot;
use super::{Bridge, Cause, Owner, STORE_BYTES};
use super::{BIT_CONFIG_TIMEOUT, BIT_LINK_DOWN, BIT_TIMEOUT};
use crate::answer::{Answer, Response};

impl Bridge {
    /// "At a tick it steps, then closes each request whose age (ticks since
    /// sending) is T."
    pub fn tick(&mut self, store: &mut [u8]) -> Answer {
        if store.len() < STORE_BYTES {
            return Answer::refused(8);
        }
        self.now = self.now.wrapping_add(1);
        while let Some(index) = self.due_piece() {
            self.time_out(index, store);
        }
        Answer::accepted()
    }

    /// Ages count around the counter's end.
    fn due_piece(&self) -> Option<usize> {
        let age = |born: u32| self.now.wrapping_sub(born);
        let limit = self.settings.time_limit;
        self.pieces.iter().position(|p| age(p.born) == limit)
    }

    /// "At timeout it closes and its tag rests until the link drops."
    fn time_out(&mut self, index: usize, store: &mut [u8]) {
        let piece = self.pieces.remove(index);
        self.resting.push(piece.tag);
        match piece.owner {
            Owner::Read(slot) => {
                self.set_bit(BIT_TIMEOUT);
                self.note_failure(slot, piece.rank, Cause::Timeout);
                self.settle_read(slot, store);
            }
            Owner::ConfigRead | Owner::ConfigWrite => {
                self.set_bit(BIT_CONFIG_TIMEOUT);
                self.config_slot.finish(Response::Slverr, 0);
            }
        }
    }

    /// "Going up, or repeating the present link state, changes nothing else." But
    /// a down link that goes up is counted (02, request A2).
    pub fn link(&mut self, up: bool, store: &mut [u8]) -> Answer {
        if store.len() < STORE_BYTES {
            return Answer::refused(8);
        }
        match (self.link_up, up) {
            (true, false) => self.drop_link(store),
            // "starting again at zero after its last value"
            (false, true) => self.session = self.session.wrapping_add(1),
            _ => {}
        }
        self.link_up = up;
        Answer::accepted()
    }

    /// "Link going down sets bit 0, finishes each open access as SLVERR with
    /// zero data and frees every tag; finished answers stay until taken."
    fn drop_link(&mut self, store: &mut [u8]) {
        self.set_bit(BIT_LINK_DOWN);
        self.pieces.clear();
        self.resting.clear();
        for read in self.reads.iter_mut().filter(|r| r.finished.is_none()) {
            read.finished = Some(Response::Slverr);
            clear_slot(store, read.slot, read.length);
        }
        self.config_slot.finish(Response::Slverr, 0);
    }
}
