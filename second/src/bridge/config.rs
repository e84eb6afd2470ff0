//! Configuration accesses and the local words (01, "Configuration space"; 02,
//! request A4).

use super::words::*;
use super::{Bridge, ConfigSlot, Owner, Piece, AREA_BYTES, CONFIG_SLOT};
use crate::answer::{Answer, Response};
use crate::header::{request_bytes, Request, Target};
use crate::settings::PcieAddress;

/// A configuration read or write; data and strobes count for a write only.
#[derive(Clone, Copy, Debug, PartialEq, Eq)]
pub struct Access {
    pub offset: u64,
    pub write: bool,
    pub data: u32,
    pub strobes: u32,
}

/// "Offset bits: 7:2 register, 11:8 extended register, 14:12 function, 19:15
/// device, from 20 bus. Low two bits are ignored."
struct Place {
    bus: u32,
    device: u32,
    function: u32,
    extended: u32,
    register: u32,
}

impl Place {
    fn of(offset: u64) -> Place {
        Place {
            bus: (offset >> 20) as u32,
            device: (offset >> 15) as u32 % 32,
            function: (offset >> 12) as u32 % 8,
            extended: (offset >> 8) as u32 % 16,
            register: (offset >> 2) as u32 % 64,
        }
    }
}

impl Bridge {
    /// Order: 8, 5, 9, 10, 11, 4, 7, "where a local access stops after 9".
    pub fn config(&mut self, access: &Access, area: &mut [u8]) -> Answer {
        if area.len() < AREA_BYTES {
            return Answer::refused(8);
        }
        if self.config_slot != ConfigSlot::Free {
            return Answer::refused(5);
        }
        if access.offset >= 1 << (20 + self.settings.bus_bits) {
            return Answer::refused(9);
        }
        let place = Place::of(access.offset);
        if place.bus == self.primary {
            return self.local_access(access);
        }
        match self.routed_refusal(&place) {
            0 => self.send_config(access, &place, area),
            number => Answer::refused(number),
        }
    }

    /// "if secondary <= bus <= subordinate"; 02: "Refusal 11 from now on is for
    /// the secondary bus only".
    fn routed_refusal(&self, place: &Place) -> u32 {
        if place.bus < self.secondary || place.bus > self.subordinate {
            10
        } else if self.on_secondary(place) && place.device != 0 {
            11
        } else if !self.link_up {
            4
        } else if self.free_tags().is_empty() {
            7
        } else {
            0
        }
    }

    fn on_secondary(&self, place: &Place) -> bool {
        place.bus == self.secondary
    }

    fn send_config(&mut self, access: &Access, place: &Place, area: &mut [u8]) -> Answer {
        let tag = self.free_tags()[0];
        let mut sent = self.config_header(access, place, tag);
        if access.write {
            // "Data goes low byte first."
            sent.extend(access.data.to_le_bytes());
        }
        area[..sent.len()].copy_from_slice(&sent);
        self.open_config_piece(access.write, tag);
        Answer {
            sent: sent.len() as u32,
            ..config_accepted()
        }
    }

    fn config_header(&self, access: &Access, place: &Place, tag: u32) -> Vec<u8> {
        request_bytes(&Request {
            write: access.write,
            target: Target::Config {
                // "type 0 when bus = secondary, else type 1"; 02: "type 1
                // requests carry any device".
                type1: !self.on_secondary(place),
                bus: place.bus,
                device: place.device,
                function: place.function,
                extended: place.extended,
                register: place.register,
            },
            length: 1,
            requester: self.settings.requester,
            tag,
            last: 0,
            // "First enables are F for a read, the strobes mod 16 for a write"
            first: if access.write {
                access.strobes % 16
            } else {
                15
            },
        })
        .expect("a routed access has a header")
    }

    fn open_config_piece(&mut self, write: bool, tag: u32) {
        let session = self.session;
        let (owner, slot) = match write {
            true => (Owner::ConfigWrite, ConfigSlot::OpenWrite { session }),
            false => (Owner::ConfigRead, ConfigSlot::OpenRead { session }),
        };
        self.config_slot = slot;
        self.pieces.push(Piece {
            tag,
            owner,
            born: self.now,
            rank: 0,
            next: PcieAddress(0),
            place: 0,
            missing: 4,
        });
    }

    /// "A local access finishes at once in the configuration slot, as OKAY,
    /// with nothing sent." With the link down its session is that of the life
    /// that ended, or before the first one the counter's first value.
    fn local_access(&mut self, access: &Access) -> Answer {
        let offset = (access.offset & 0xFFC) as u32;
        let data = if access.write {
            self.write_local_word(offset, access.data, access.strobes);
            0
        } else {
            self.local_word(offset)
        };
        self.config_slot = ConfigSlot::Finished {
            response: Response::Okay,
            data,
            session: self.session,
        };
        config_accepted()
    }

    /// What a local word reads; "Everything else reads 0".
    pub(super) fn local_word(&self, offset: u32) -> u32 {
        match offset {
            WORD_BUSES => self.primary | self.secondary << 8 | self.subordinate << 16,
            WORD_INFO => 0x0000_000B,
            WORD_DISABLE if self.line_off => LINE_OFF,
            WORD_DECODE => self.decode,
            WORD_MASK => self.mask,
            WORD_LINK if self.link_up => LINK_UP,
            WORD_STATUS => self.errors.status(),
            WORD_ERRORS => self.errors.oldest(),
            _ => 0,
        }
    }

    /// "Strobes choose bytes. Everything else ... ignores writes."
    fn write_local_word(&mut self, offset: u32, data: u32, strobes: u32) {
        let chosen = strobed_bits(strobes);
        let mixed = self.local_word(offset) & !chosen | data & chosen;
        match offset {
            WORD_BUSES => {
                self.primary = mixed & 0xFF;
                self.secondary = mixed >> 8 & 0xFF;
                self.subordinate = mixed >> 16 & 0xFF;
            }
            WORD_DISABLE => self.line_off = mixed & LINE_OFF != 0,
            // "cleared by writing one"
            WORD_DECODE => self.decode &= !(data & chosen & self.clearable()),
            WORD_MASK => self.mask = mixed & DECODE_BITS,
            WORD_STATUS => self.errors.write_status(data & chosen),
            // "any write there removes the oldest entry": any data and any
            // strobes, also none.
            WORD_ERRORS => self.errors.remove_oldest(),
            _ => {}
        }
    }
}

/// Strobe bit i chooses byte i; strobes count mod 16.
fn strobed_bits(strobes: u32) -> u32 {
    (0..4)
        .filter(|i| strobes >> i & 1 == 1)
        .map(|i| 0xFF << (8 * i))
        .sum()
}

/// "read and configuration none yet, with the slot (8 for configuration)"
fn config_accepted() -> Answer {
    Answer {
        slot: CONFIG_SLOT,
        ..Answer::accepted()
    }
}
