//! The bridge: its state, as plain lists, and what it shows.

mod complete;
mod config;
mod errors;
mod memory;
mod take;
mod time;
mod words;

pub use config::Access;
pub use errors::{ErrorQueue, QUEUE_DEPTH};
pub use words::*;

use crate::answer::Response;
use crate::settings::{PcieAddress, Settings, Window};

/// "32 free tags, 8 free read slots and one free configuration slot"
pub const TAGS: u32 = 32;
pub const READ_SLOTS: u32 = 8;
pub const CONFIG_SLOT: u32 = 8;
/// A read slot's bytes "lie from 4,096k in a lent store of at least 32,768".
pub const SLOT_BYTES: usize = 4096;
pub const STORE_BYTES: usize = 32_768;
/// "The lent sending area must hold 4,608 bytes."
pub const AREA_BYTES: usize = 4608;

/// Whose request a piece is.
#[derive(Clone, Copy, Debug, PartialEq, Eq)]
pub enum Owner {
    /// A memory read, by its slot.
    Read(u32),
    ConfigRead,
    ConfigWrite,
}

/// An open request.
#[derive(Clone, Debug, PartialEq, Eq)]
pub struct Piece {
    pub tag: u32,
    pub owner: Owner,
    /// The tick counter when it was sent.
    pub born: u32,
    /// Its rank among the pieces of its read, in address order.
    pub rank: u32,
    /// The address of the next missing byte.
    pub next: PcieAddress,
    /// Where that byte goes in its slot.
    pub place: u32,
    pub missing: u32,
}

/// Why a piece failed.
#[derive(Clone, Copy, Debug, PartialEq, Eq)]
pub enum Cause {
    Unsupported,
    Timeout,
    Poison,
    Abort,
}

/// A memory read that holds a slot.
#[derive(Clone, Debug, PartialEq, Eq)]
pub struct Read {
    pub slot: u32,
    pub length: u32,
    /// The first cause of each failed piece, with the piece's rank.
    pub failures: Vec<(u32, Cause)>,
    pub finished: Option<Response>,
    /// The session counter when it was accepted.
    pub session: u32,
}

/// What the configuration slot holds. `session` is the session counter when the
/// access was accepted.
#[derive(Clone, Copy, Debug, PartialEq, Eq)]
pub enum ConfigSlot {
    Free,
    OpenRead {
        session: u32,
    },
    OpenWrite {
        session: u32,
    },
    Finished {
        response: Response,
        data: u32,
        session: u32,
    },
}

impl ConfigSlot {
    pub fn is_open(&self) -> bool {
        matches!(
            self,
            ConfigSlot::OpenRead { .. } | ConfigSlot::OpenWrite { .. }
        )
    }

    pub fn is_finished(&self) -> bool {
        matches!(self, ConfigSlot::Finished { .. })
    }

    /// An open access gets its answer and keeps its session number; what is not
    /// open stays as it is.
    fn finish(&mut self, response: Response, data: u32) {
        if let ConfigSlot::OpenRead { session } | ConfigSlot::OpenWrite { session } = *self {
            *self = ConfigSlot::Finished {
                response,
                data,
                session,
            };
        }
    }
}

#[derive(Clone, Debug, PartialEq, Eq)]
pub struct Bridge {
    settings: Settings,
    primary: u32,
    secondary: u32,
    subordinate: u32,
    line_off: bool,
    decode: u32,
    mask: u32,
    link_up: bool,
    errors: ErrorQueue,
    now: u32,
    /// "counting how often a down link went up", mod 2^32.
    session: u32,
    pieces: Vec<Piece>,
    reads: Vec<Read>,
    config_slot: ConfigSlot,
    resting: Vec<u32>,
}

impl Bridge {
    /// The same from "a list of window records that the caller lends"; of
    /// `others` the windows are not looked at. "1 to 6 windows".
    pub fn from_list(records: &[Window], others: &Settings) -> (Bridge, u32) {
        let mut settings = Settings {
            count: 0,
            windows: [Window::default(); 6],
            ..others.clone()
        };
        for record in records {
            let Some(place) = settings.windows.get_mut(settings.count as usize) else {
                return (Bridge::fresh(Settings::example()), 1);
            };
            *place = *record;
            settings.count += 1;
        }
        Bridge::new(&settings)
    }

    /// A fresh bridge and 0, or refusal 1 with the fresh bridge of the worked examples
    /// in its place.
    pub fn new(settings: &Settings) -> (Bridge, u32) {
        if settings.lawful() {
            (Bridge::fresh(settings.clone()), 0)
        } else {
            (Bridge::fresh(Settings::example()), 1)
        }
    }

    /// "A fresh bridge has its link down, all registers and the tick counter
    /// zero".
    fn fresh(settings: Settings) -> Bridge {
        Bridge {
            settings,
            primary: 0,
            secondary: 0,
            subordinate: 0,
            line_off: false,
            decode: 0,
            mask: 0,
            link_up: false,
            errors: ErrorQueue::default(),
            now: 0,
            session: 0,
            pieces: Vec::new(),
            reads: Vec::new(),
            config_slot: ConfigSlot::Free,
            resting: Vec::new(),
        }
    }

    /// For traffic that starts near the counter's last value.
    pub fn set_counter(&mut self, value: u32) {
        self.now = value;
    }

    /// For traffic in which this counter starts again at zero.
    pub fn set_session(&mut self, value: u32) {
        self.session = value;
    }

    /// Words 018, 134, 138, 13C, 144, 148 and 154.
    pub fn registers(&self) -> [u32; 7] {
        REGISTERS.map(|offset| self.local_word(offset))
    }

    /// What demand 3 calls registers holds the whole queue too, of which word
    /// 154 shows the oldest entry only.
    pub fn errors(&self) -> &ErrorQueue {
        &self.errors
    }

    /// "The line is high when decode and mask share a bit and bit 8 of 134 is
    /// 0."
    pub fn line(&self) -> bool {
        self.decode & self.mask != 0 && !self.line_off
    }

    pub fn settings(&self) -> &Settings {
        &self.settings
    }

    pub fn counter(&self) -> u32 {
        self.now
    }

    /// The number of the link's present life, or of its last one. No register.
    pub fn session(&self) -> u32 {
        self.session
    }

    pub fn link_is_up(&self) -> bool {
        self.link_up
    }

    pub fn pieces(&self) -> &[Piece] {
        &self.pieces
    }

    pub fn reads(&self) -> &[Read] {
        &self.reads
    }

    pub fn config_slot(&self) -> ConfigSlot {
        self.config_slot
    }

    pub fn resting(&self) -> &[u32] {
        &self.resting
    }

    fn set_bit(&mut self, bit: u32) {
        self.decode |= 1 << bit;
    }

    /// A tag is free when no open piece has it and it does not rest.
    fn tag_is_free(&self, tag: u32) -> bool {
        !self.resting.contains(&tag) && self.pieces.iter().all(|p| p.tag != tag)
    }

    /// The free tags, lowest first.
    pub fn free_tags(&self) -> Vec<u32> {
        (0..TAGS).filter(|tag| self.tag_is_free(*tag)).collect()
    }

    /// The free read slots, lowest first.
    pub fn free_slots(&self) -> Vec<u32> {
        let used = |slot: u32| self.reads.iter().any(|r| r.slot == slot);
        (0..READ_SLOTS).filter(|slot| !used(*slot)).collect()
    }
}
