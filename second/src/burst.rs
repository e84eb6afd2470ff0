//! What a burst covers and how it is cut (01, "Memory bursts").

use crate::settings::{AxiAddress, PcieAddress};

#[derive(Clone, Copy, Debug, PartialEq, Eq)]
pub struct Burst {
    pub start: AxiAddress,
    /// Size code z: 2^z bytes a beat.
    pub size: u32,
    pub beats: u32,
    /// Burst type; INCR is 1.
    pub kind: u32,
}

impl Burst {
    /// The number of bytes covered, or nothing where refusal 3 is due.
    pub fn length(&self) -> Option<u32> {
        if self.size > 5 || self.beats < 1 || self.beats > 256 || self.kind != 1 {
            return None;
        }
        // "the start address up to, not including, the start rounded down to
        // 2^z plus beats x 2^z"; the end may be 2^64 or more.
        let start = u128::from(self.start.0);
        let beat = 1u128 << self.size;
        let end = start / beat * beat + u128::from(self.beats) * beat;
        // "It must stay in one 4 KB page."
        if start / 4096 != (end - 1) / 4096 {
            return None;
        }
        Some((end - start) as u32)
    }
}

/// One stretch of a burst that goes out as one request.
#[derive(Clone, Copy, Debug, PartialEq, Eq)]
pub struct Stretch {
    pub address: PcieAddress,
    /// Where its first byte lies in the burst.
    pub place: u32,
    pub length: u32,
}

/// "The bytes are cut at every multiple of the read or write limit, in address
/// order."
pub fn cut(start: PcieAddress, length: u32, limit: u32) -> Vec<Stretch> {
    let mut list = Vec::new();
    let mut place = 0;
    while place < length {
        let address = start.0 + u64::from(place);
        let room = limit - (address % u64::from(limit)) as u32;
        let taken = room.min(length - place);
        list.push(Stretch {
            address: PcieAddress(address),
            place,
            length: taken,
        });
        place += taken;
    }
    list
}

impl Stretch {
    /// Unwanted bytes of the first word, before the first wanted one.
    pub fn lead(&self) -> u32 {
        (self.address.0 % 4) as u32
    }

    /// "Length counts 4-byte words touched"
    pub fn words(&self) -> u32 {
        (self.lead() + self.length).div_ceil(4)
    }

    /// "First and last byte enables mark the bytes wanted; with one word, last
    /// is 0."
    pub fn enables(&self) -> (u32, u32) {
        let first = self.wanted_in_word(0);
        let last = match self.words() {
            1 => 0,
            words => self.wanted_in_word(words - 1),
        };
        (first, last)
    }

    fn wanted_in_word(&self, word: u32) -> u32 {
        let wanted = self.lead()..self.lead() + self.length;
        (0..4)
            .filter(|i| wanted.contains(&(4 * word + i)))
            .map(|i| 1 << i)
            .sum()
    }
}
