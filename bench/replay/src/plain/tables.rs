//! The entries of the tables by tag and by slot.

use super::answer::Response;

/// Whose request it is.
#[derive(Clone, Copy, Debug, Default, PartialEq, Eq)]
pub enum Owner {
    #[default]
    Read,
    ConfigRead,
    ConfigWrite,
}

/// An open request, by its tag.
#[derive(Clone, Copy, Debug, Default)]
pub struct Piece {
    /// The tick at which it was sent.
    pub born: u32,
    /// Where the next byte goes in the store.
    pub place: u16,
    pub missing: u16,
    /// The next byte's address mod 128.
    pub lower: u8,
    pub slot: u8,
    /// Its rank among its read's pieces, in address order.
    pub rank: u8,
    pub owner: Owner,
}

/// No piece has failed: a rank above all.
pub const NONE_FAILED: u8 = u8::MAX;

/// An access that holds a slot.
#[derive(Clone, Copy, Debug, Default)]
pub struct Slot {
    pub session: u32,
    pub data: u32,
    /// The burst's bytes; 0 for configuration.
    pub length: u16,
    /// Pieces that are open.
    pub pieces: u8,
    /// The rank of the first failed piece in address order.
    pub failed: u8,
    /// OKAY, or that piece's response.
    pub response: Response,
}

impl Slot {
    /// A piece's first cause counts, and of the pieces the first in order.
    #[inline]
    pub fn fail(&mut self, rank: u8, response: Response) {
        if rank < self.failed {
            self.failed = rank;
            self.response = response;
        }
    }
}
