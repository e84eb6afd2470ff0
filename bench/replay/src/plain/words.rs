//! The local words.

use super::Bridge;

pub const BUSES: u32 = 0x018;
pub const INFO: u32 = 0x130;
pub const DISABLE: u32 = 0x134;
pub const DECODE: u32 = 0x138;
pub const MASK: u32 = 0x13C;
pub const LINK: u32 = 0x144;
pub const STATUS: u32 = 0x148;
pub const ERRORS: u32 = 0x154;

/// Bits of 138 and 13C.
pub const LINK_DOWN: u32 = 1;
pub const CONFIG_TIMEOUT: u32 = 1 << 8;
pub const UNSUPPORTED: u32 = 1 << 20;
pub const UNEXPECTED: u32 = 1 << 21;
pub const TIMEOUT: u32 = 1 << 22;
pub const POISON: u32 = 1 << 23;
pub const ABORT: u32 = 1 << 24;
pub const BURST: u32 = 1 << 25;
const MESSAGES: u32 = 7 << 9;
const ALL: u32 = LINK_DOWN | CONFIG_TIMEOUT | MESSAGES | 0x3F << 20;

const LINE_OFF: u32 = 1 << 8;
const LINK_UP: u32 = 1 << 11;
const BUS_BYTES: u32 = 0x00FF_FFFF;

impl Bridge {
    /// What a local word shows; `offset` is below 1,000 hex and a multiple of 4.
    pub fn local_word(&self, offset: u32) -> u32 {
        match offset {
            BUSES => self.buses,
            INFO => 0x0000_000B,
            DISABLE => u32::from(self.line_off) * LINE_OFF,
            DECODE => self.decode,
            MASK => self.mask,
            LINK => u32::from(self.link_up) * LINK_UP,
            STATUS => self.errors.status(),
            ERRORS => self.errors.oldest(),
            _ => 0,
        }
    }

    pub(super) fn write_local_word(&mut self, offset: u32, data: u32, strobes: u32) {
        let chosen = chosen_bits(strobes);
        let ones = data & chosen;
        match offset {
            BUSES => self.buses = (self.buses & !chosen | ones) & BUS_BYTES,
            DISABLE if chosen & LINE_OFF != 0 => self.line_off = data & LINE_OFF != 0,
            DECODE if self.errors.is_empty() => self.decode &= !ones,
            DECODE => self.decode &= !ones | MESSAGES,
            MASK => self.mask = (self.mask & !chosen | ones) & ALL,
            STATUS => self.errors.write_status(ones),
            ERRORS => self.errors.remove_oldest(),
            _ => {}
        }
    }
}

/// Strobe bit i chooses byte i: the four bits are spread, then made bytes.
#[inline]
fn chosen_bits(strobes: u32) -> u32 {
    let spread = (strobes & 15).wrapping_mul(0x0020_4081) & 0x0101_0101;
    spread * 0xFF
}
