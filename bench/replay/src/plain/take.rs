//! Taking: the look and the release, with one set of refusals (8, 14).

use super::{Answer, Bridge, CONFIG_SLOT, SLOT_BYTES, STORE_BYTES};

impl Bridge {
    /// Its number and the part of the store that holds the bytes.
    #[inline]
    pub fn look<'a>(&self, slot: u32, store: &'a [u8]) -> (u32, &'a [u8]) {
        match self.refuses_take(slot, store) {
            0 => {
                let place = slot as usize * SLOT_BYTES % STORE_BYTES;
                let length = usize::from(self.slots[slot as usize].length);
                (0, &store[place..place + length])
            }
            number => (number, &[]),
        }
    }

    /// Frees the slot.
    #[inline]
    pub fn release(&mut self, slot: u32, store: &[u8]) -> Answer {
        match self.refuses_take(slot, store) {
            0 => {
                self.used &= !(1 << slot);
                self.finished &= !(1 << slot);
                let found = &self.slots[slot as usize];
                Answer {
                    response: found.response,
                    data: found.data,
                    session: found.session,
                    ..Answer::DONE
                }
            }
            number => Answer::refused(number),
        }
    }

    #[inline]
    fn refuses_take(&self, slot: u32, store: &[u8]) -> u32 {
        if store.len() < STORE_BYTES {
            8
        } else if slot > CONFIG_SLOT as u32 || self.finished >> slot & 1 == 0 {
            14
        } else {
            0
        }
    }
}
