//! Error messages and their queue (request A1), a ring of words as 154 shows
//! them. Captures hold no messages; the bridge takes them all the same.

use super::{Answer, Bridge};

const DEPTH: usize = 32;
const VALID: u32 = 1 << 18;
const NOT_EMPTY: u32 = 1 << 16;
const OVERFLOW: u32 = 1 << 17;

#[derive(Clone, Debug, Default)]
pub struct ErrorQueue {
    entries: [u32; DEPTH],
    first: usize,
    count: usize,
    overflowed: bool,
}

impl ErrorQueue {
    #[inline]
    pub fn is_empty(&self) -> bool {
        self.count == 0
    }

    fn add(&mut self, entry: u32) {
        if self.count == DEPTH {
            self.overflowed = true;
        } else {
            self.entries[(self.first + self.count) % DEPTH] = entry;
            self.count += 1;
        }
    }

    pub fn remove_oldest(&mut self) {
        if self.count > 0 {
            self.first = (self.first + 1) % DEPTH;
            self.count -= 1;
        }
    }

    pub fn write_status(&mut self, ones: u32) {
        self.overflowed &= ones & OVERFLOW == 0;
    }

    pub fn status(&self) -> u32 {
        (u32::from(!self.is_empty()) * NOT_EMPTY) | (u32::from(self.overflowed) * OVERFLOW)
    }

    pub fn oldest(&self) -> u32 {
        if self.is_empty() {
            0
        } else {
            self.entries[self.first]
        }
    }
}

impl Bridge {
    /// Order: 12, 4.
    pub fn message(&mut self, bytes: &[u8]) -> Answer {
        let Some((requester, severity)) = read_message(bytes) else {
            return Answer::refused(12);
        };
        if !self.link_up {
            return Answer::refused(4);
        }
        self.decode |= 1 << (9 + severity);
        self.errors.add(requester | severity << 16 | VALID);
        Answer::DONE
    }

    /// The queued entries, oldest first, as 154 shows them.
    pub fn queued(&self) -> impl Iterator<Item = u32> + '_ {
        let queue = &self.errors;
        (0..queue.count).map(|i| queue.entries[(queue.first + i) % DEPTH])
    }
}

/// Requester ID and severity: 0 correctable, 1 non-fatal, 2 fatal.
fn read_message(bytes: &[u8]) -> Option<(u32, u32)> {
    let bytes: &[u8; 16] = bytes.try_into().ok()?;
    let [0x30, 0, 0, 0, high, low, _, code, rest @ ..] = bytes else {
        return None;
    };
    let severity = match code {
        0x30 => 0,
        0x31 => 1,
        0x33 => 2,
        _ => return None,
    };
    let requester = u32::from(u16::from_be_bytes([*high, *low]));
    rest.iter()
        .all(|b| *b == 0)
        .then_some((requester, severity))
}
