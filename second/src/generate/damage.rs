//! Cuts or damages a traffic file.

use super::Random;
use crate::traffic::{HEADER_BYTES, RECORD_BYTES};

/// The file, cut somewhere, with a changed byte, or with bytes too many.
pub fn damage(bytes: &[u8], seed: u64) -> Vec<u8> {
    let mut random = Random::new(seed ^ 0xDA11_A6ED);
    let mut bytes = bytes.to_vec();
    let at = random.below(bytes.len() as u64) as usize;
    match random.below(8) {
        0 | 1 => bytes.truncate(at),
        // In a header of any version, or shortly after it.
        2 => bytes.truncate(at.min(HEADER_BYTES + at % (2 * RECORD_BYTES))),
        3 => bytes.push(random.word() as u8),
        4 => bytes[at % HEADER_BYTES] ^= 1 << random.below(8),
        5 => {
            let last = bytes.len() - 1;
            bytes[last - at % 5] ^= 1 << random.below(8);
        }
        6 => {
            bytes.remove(at);
        }
        _ => bytes[at] = random.word() as u8,
    }
    bytes
}
