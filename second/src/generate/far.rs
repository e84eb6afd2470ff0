//! The far side: what it owes and how it answers, mostly well.

use super::Random;
use crate::bridge::Bridge;
use crate::header::{read_request, write_completion, Completion, Target};

#[derive(Clone, Copy, Debug, PartialEq, Eq)]
pub enum Kind {
    Memory,
    ConfigRead,
    ConfigWrite,
}

/// A request that the far side may still answer.
#[derive(Clone, Debug)]
pub struct Owed {
    pub kind: Kind,
    pub tag: u32,
    pub requester: u32,
    /// The next address to send, and the bytes left.
    pub next: u64,
    pub left: u32,
}

impl Owed {
    /// From the header of a request; nothing for a memory write.
    pub fn of(header: &[u8]) -> Option<Owed> {
        let request = read_request(header).expect("the bridge sends lawful headers");
        let (kind, next, left) = match request.target {
            Target::Memory(_) if request.write => return None,
            Target::Memory(address) => {
                let lead = request.first.trailing_zeros();
                let end = match request.length {
                    1 => request.first,
                    _ => request.last,
                };
                let trail = 3 - end.ilog2();
                let left = 4 * request.length - lead - trail;
                (Kind::Memory, address.0 + u64::from(lead), left)
            }
            Target::Config { .. } if request.write => (Kind::ConfigWrite, 0, 4),
            Target::Config { .. } => (Kind::ConfigRead, 0, 4),
        };
        Some(Owed {
            kind,
            tag: request.tag,
            requester: request.requester,
            next,
            left,
        })
    }

    pub fn lower(&self) -> u32 {
        (self.next % 128) as u32
    }

    /// Words that hold all bytes left.
    pub fn words_left(&self) -> u32 {
        (self.lower() % 4 + self.left).div_ceil(4)
    }

    /// What `words` words of data send.
    pub fn useful(&self, words: u32) -> u32 {
        (4 * words - self.lower() % 4).min(self.left)
    }

    /// The right completion with so many words (memory reads only).
    pub fn right(&self, words: u32, random: &mut Random) -> Completion {
        let data = self.kind != Kind::ConfigWrite;
        let memory = self.kind == Kind::Memory;
        Completion {
            data,
            poisoned: false,
            length: match self.kind {
                Kind::Memory => words,
                Kind::ConfigRead => 1,
                Kind::ConfigWrite => 0,
            },
            completer: random.word() & 0xFFFF,
            status: 0,
            count: if memory { self.left } else { 4 },
            requester: self.requester,
            tag: self.tag,
            lower: if memory { self.lower() } else { 0 },
        }
    }

    /// A completion without data.
    pub fn status(&self, status: u32, random: &mut Random) -> Completion {
        Completion {
            data: false,
            poisoned: false,
            length: 0,
            completer: random.word() & 0xFFFF,
            status,
            count: random.between(1, 4096),
            requester: self.requester,
            tag: self.tag,
            lower: random.between(0, 127),
        }
    }

    /// How many words to send now: all, up to a boundary, or any number.
    pub fn some_words(&self, random: &mut Random) -> u32 {
        let all = self.words_left();
        match random.below(10) {
            0..=5 => all,
            6..=8 => (32 - self.lower() / 4).min(all),
            _ => random.between(1, all),
        }
    }
}

/// Header and random payload.
pub fn packet(value: &Completion, random: &mut Random) -> Vec<u8> {
    let mut header = [0; 16];
    let written = write_completion(value, &mut header);
    assert_eq!(written.number, 0, "{value:?}");
    let mut bytes = header[..12].to_vec();
    bytes.extend(random.bytes(4 * value.length as usize));
    bytes
}

/// Splits sent request headers (no data between them).
pub fn headers(mut sent: &[u8]) -> Vec<&[u8]> {
    let mut list = Vec::new();
    while !sent.is_empty() {
        let size = if sent[0] & 0x20 != 0 { 16 } else { 12 };
        list.push(&sent[..size]);
        sent = &sent[size..];
    }
    list
}

#[derive(Clone, Default)]
pub struct FarSide {
    /// Requests whose tags are open.
    pub live: Vec<Owed>,
    /// Requests whose tags are closed, for late answers.
    pub stale: Vec<Owed>,
}

impl FarSide {
    /// Takes in the requests of an accepted read.
    pub fn take_reads(&mut self, sent: &[u8]) {
        self.live
            .extend(headers(sent).into_iter().filter_map(Owed::of));
    }

    /// Takes in the request of an accepted configuration access.
    pub fn take_config(&mut self, sent: &[u8]) {
        if sent.len() >= 12 {
            self.live.extend(Owed::of(&sent[..12]));
        }
    }

    /// Moves what is no longer open to the stale ones.
    pub fn sync(&mut self, bridge: &Bridge) {
        let open = |owed: &Owed| bridge.pieces().iter().any(|p| p.tag == owed.tag);
        let (live, gone): (Vec<Owed>, Vec<Owed>) = self.live.drain(..).partition(open);
        self.live = live;
        self.stale.extend(gone);
        let extra = self.stale.len().saturating_sub(24);
        self.stale.drain(..extra);
    }

    /// Which live request to answer: often the oldest.
    pub fn choose(&self, random: &mut Random) -> Option<usize> {
        match self.live.len() {
            0 => None,
            _ if random.chance(50) => Some(0),
            count => Some(random.below(count as u64) as usize),
        }
    }

    /// So many bytes of a request are sent; one with none left is silent.
    pub fn advance(&mut self, index: usize, bytes: u32) {
        let owed = &mut self.live[index];
        owed.next = owed.next.wrapping_add(u64::from(bytes));
        owed.left -= bytes;
        if owed.left == 0 {
            self.live.remove(index);
        }
    }
}
