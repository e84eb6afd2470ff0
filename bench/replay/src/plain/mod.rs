//! The plain bridge: document 01 with requests A1, A2 and A4 of document 02,
//! changed in place. `capture` replays A5's files on it.

mod answer;
pub mod capture;
mod complete;
mod config;
mod errors;
mod memory;
pub mod record;
mod settings;
mod tables;
mod take;
mod time;
mod words;

pub use answer::{Answer, Response};
pub use config::Access;
pub use memory::Burst;
pub use settings::{Settings, Window};

use errors::ErrorQueue;
use tables::{Piece, Slot};

pub const TAGS: usize = 32;
pub const READ_SLOTS: u32 = 8;
pub const CONFIG_SLOT: usize = 8;
/// Slot k's bytes lie from 4,096k in the store.
pub const SLOT_BYTES: usize = 4096;
pub const STORE_BYTES: usize = 32_768;
pub const AREA_BYTES: usize = 4608;

/// The state. Sets of tags and of slots are words with one bit a member; the
/// tables behind them are looked up by tag and by slot.
#[derive(Clone, Debug)]
pub struct Bridge {
    /// Tags that are free, and tags of open requests; a tag in neither rests.
    free: u32,
    open: u32,
    /// Slots that are not free, and those of them that hold an answer; bit 8 is
    /// the configuration slot.
    used: u32,
    finished: u32,
    config_read_open: bool,
    link_up: bool,
    line_off: bool,
    now: u32,
    /// No open request times out before this tick.
    due: u32,
    session: u32,
    decode: u32,
    mask: u32,
    /// Word 018: primary, secondary, subordinate from the low byte up.
    buses: u32,
    settings: Settings,
    pieces: [Piece; TAGS],
    slots: [Slot; CONFIG_SLOT + 1],
    errors: ErrorQueue,
}

impl Bridge {
    /// A fresh bridge; the settings keep 01's rules.
    pub fn new(settings: Settings) -> Bridge {
        Bridge {
            free: u32::MAX,
            open: 0,
            used: 0,
            finished: 0,
            config_read_open: false,
            link_up: false,
            line_off: false,
            now: 0,
            due: 0,
            session: 0,
            decode: 0,
            mask: 0,
            buses: 0,
            settings,
            pieces: [Piece::default(); TAGS],
            slots: [Slot::default(); CONFIG_SLOT + 1],
            errors: ErrorQueue::default(),
        }
    }

    /// Other first values of the two counters, for tests near their ends.
    pub fn start_at(&mut self, tick: u32, session: u32) {
        self.now = tick;
        self.session = session;
    }

    /// The interrupt line.
    pub fn line(&self) -> bool {
        self.decode & self.mask != 0 && !self.line_off
    }

    /// The lowest free tag leaves the free ones; its request is open from now.
    #[inline]
    fn open_piece(&mut self, piece: Piece) -> u32 {
        let tag = self.free.trailing_zeros();
        self.free &= self.free.wrapping_sub(1);
        if self.open == 0 {
            self.due = self.now.wrapping_add(self.settings.time_limit);
        }
        self.open |= 1 << tag;
        self.pieces[tag as usize % TAGS] = piece;
        tag
    }

    /// An answered request's tag is free again.
    #[inline]
    fn close_piece(&mut self, tag: u32) {
        self.free |= 1 << tag;
        self.open &= !(1 << tag);
    }
}

impl Default for Bridge {
    /// The whiteboard bridge.
    fn default() -> Bridge {
        Bridge::new(Settings::default())
    }
}
