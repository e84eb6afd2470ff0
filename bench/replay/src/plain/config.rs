//! Configuration accesses: local words and routed requests.

use super::memory::join;
use super::tables::{Owner, Piece, Slot};
use super::{Answer, Bridge, Response, AREA_BYTES, CONFIG_SLOT};

/// Strobes and data count for a write only.
#[derive(Clone, Copy, Debug, PartialEq, Eq)]
pub struct Access {
    pub offset: u64,
    pub write: bool,
    pub strobes: u32,
    pub data: u32,
}

const SLOT_BIT: u32 = 1 << CONFIG_SLOT;

impl Bridge {
    /// Order: 8, 5, 9, then local; or 10, 11, 4, 7.
    #[inline(never)]
    pub fn config(&mut self, access: Access, area: &mut [u8]) -> Answer {
        let Some(area) = area.first_chunk_mut::<AREA_BYTES>() else {
            return Answer::refused(8);
        };
        if self.used & SLOT_BIT != 0 {
            return Answer::refused(5);
        }
        if access.offset >> (20 + self.settings.bus_bits) != 0 {
            return Answer::refused(9);
        }
        let offset = access.offset as u32;
        let bus = offset >> 20;
        let [primary, secondary, subordinate, _] = self.buses.to_le_bytes().map(u32::from);
        if bus == primary {
            return self.local_access(access);
        }
        if bus < secondary || bus > subordinate {
            return Answer::refused(10);
        }
        let nearest = bus == secondary;
        if nearest && offset >> 15 & 31 != 0 {
            return Answer::refused(11);
        }
        if !self.link_up {
            return Answer::refused(4);
        }
        if self.free == 0 {
            return Answer::refused(7);
        }
        self.send_config(access, !nearest, area)
    }

    #[inline]
    fn send_config(&mut self, access: Access, type1: bool, area: &mut [u8; AREA_BYTES]) -> Answer {
        let (format, enables, owner) = if access.write {
            (0x44, access.strobes & 15, Owner::ConfigWrite)
        } else {
            (0x04, 15, Owner::ConfigRead)
        };
        let tag = self.open_piece(Piece {
            born: self.now,
            slot: CONFIG_SLOT as u8,
            owner,
            ..Piece::default()
        });
        self.config_read_open = !access.write;
        self.used |= SLOT_BIT;
        self.slots[CONFIG_SLOT] = Slot {
            session: self.session,
            ..Slot::default()
        };
        let offset = access.offset as u32;
        let header = [
            (format | u32::from(type1)) << 24 | 1,
            self.settings.requester << 16 | tag << 8 | enables,
            // Bus, device and function; extended register; register.
            (offset >> 12) << 16 | offset & 0xFFC,
        ];
        let [one, two, three] = header;
        let sent = if access.write {
            *first::<16>(area) = join([one, two, three, access.data.swap_bytes()]);
            16
        } else {
            *first::<12>(area) = join([one, two, three, 0]);
            12
        };
        Answer {
            sent,
            slot: CONFIG_SLOT as u32,
            ..Answer::DONE
        }
    }

    /// Finished at once, as OKAY.
    fn local_access(&mut self, access: Access) -> Answer {
        let word = access.offset as u32 & 0xFFC;
        let data = if access.write {
            self.write_local_word(word, access.data, access.strobes);
            0
        } else {
            self.local_word(word)
        };
        self.used |= SLOT_BIT;
        self.finished |= SLOT_BIT;
        self.slots[CONFIG_SLOT] = Slot {
            session: self.session,
            data,
            response: Response::Okay,
            ..Slot::default()
        };
        Answer {
            slot: CONFIG_SLOT as u32,
            ..Answer::DONE
        }
    }

    /// The open access gets its answer.
    #[inline]
    pub(super) fn finish_config(&mut self, response: Response, data: u32) {
        self.config_read_open = false;
        self.finished |= SLOT_BIT;
        let slot = &mut self.slots[CONFIG_SLOT];
        slot.response = response;
        slot.data = data;
    }
}

#[inline]
fn first<const N: usize>(area: &mut [u8; AREA_BYTES]) -> &mut [u8; N] {
    area.first_chunk_mut().expect("a header is shorter")
}
