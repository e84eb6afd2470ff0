//! Taking: "two calls with one set of refusals" (01, "Ticks and the link").

use super::{Bridge, ConfigSlot, CONFIG_SLOT, SLOT_BYTES, STORE_BYTES};
use crate::answer::{Answer, Response};

/// What is finished in a slot.
struct Finished {
    response: Response,
    data: u32,
    length: usize,
    session: u32,
}

impl Bridge {
    /// The look: its number and "the very part of the store that holds it,
    /// empty when refused".
    pub fn look<'a>(&self, slot: u32, store: &'a [u8]) -> (u32, &'a [u8]) {
        match self.finished_in(slot, store.len()) {
            Err(number) => (number, &[]),
            // "Slot 8 is the configuration slot: its part is empty".
            Ok(_) if slot == CONFIG_SLOT => (0, &[]),
            Ok(found) => {
                let from = slot as usize * SLOT_BYTES;
                (0, &store[from..from + found.length])
            }
        }
    }

    /// "The release gives number, response and data word and frees the slot." It
    /// alone gives the session number too (02, request A2).
    pub fn release(&mut self, slot: u32, store: &[u8]) -> Answer {
        match self.finished_in(slot, store.len()) {
            Err(number) => Answer::refused(number),
            Ok(found) => {
                self.free_slot(slot);
                Answer {
                    response: found.response,
                    data: found.data,
                    session: found.session,
                    ..Answer::accepted()
                }
            }
        }
    }

    /// Order: 8, 14.
    fn finished_in(&self, slot: u32, store: usize) -> Result<Finished, u32> {
        if store < STORE_BYTES {
            return Err(8);
        }
        let found = match slot {
            CONFIG_SLOT => self.finished_config(),
            _ => self.finished_read(slot),
        };
        found.ok_or(14)
    }

    fn finished_config(&self) -> Option<Finished> {
        match self.config_slot {
            ConfigSlot::Finished {
                response,
                data,
                session,
            } => Some(Finished {
                response,
                data,
                length: 0,
                session,
            }),
            _ => None,
        }
    }

    /// The data word "is 0 for writes and for memory reads".
    fn finished_read(&self, slot: u32) -> Option<Finished> {
        let read = self.reads.iter().find(|r| r.slot == slot)?;
        Some(Finished {
            response: read.finished?,
            data: 0,
            length: read.length as usize,
            session: read.session,
        })
    }

    fn free_slot(&mut self, slot: u32) {
        if slot == CONFIG_SLOT {
            self.config_slot = ConfigSlot::Free;
        } else {
            self.reads.retain(|r| r.slot != slot);
        }
    }
}
