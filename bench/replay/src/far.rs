//! The far side of the link: what it still owes for the requests that it saw.

use crate::random::Random;

/// A request that is not answered in full.
#[derive(Clone, Copy, Debug)]
pub struct Owed {
    pub tag: u8,
    /// The first byte that is owed; not used in configuration.
    pub address: u32,
    pub missing: u32,
    pub kind: Kind,
}

#[derive(Clone, Copy, Debug, PartialEq, Eq)]
pub enum Kind {
    Memory,
    ConfigRead,
    ConfigWrite,
}

/// The requests in some bytes that were sent; whiteboard addresses are short.
pub fn requests(sent: &[u8]) -> Vec<Owed> {
    let mut list = Vec::new();
    let mut rest = sent;
    while let Some((header, behind)) = rest.split_first_chunk::<12>() {
        let (first, last) = (header[7] & 15, header[7] >> 4);
        let lead = first.trailing_zeros();
        let words = u32::from(header[2] & 3) << 8 | u32::from(header[3]);
        let tail = match words {
            1 => first.leading_zeros() - 4,
            _ => last.leading_zeros() - 4,
        };
        let word = u32::from_be_bytes([header[8], header[9], header[10], header[11]]);
        let (kind, missing) = match header[0] {
            0x04 | 0x05 => (Kind::ConfigRead, 4),
            0x44 | 0x45 => (Kind::ConfigWrite, 4),
            _ => (Kind::Memory, 4 * words - lead - tail),
        };
        list.push(Owed {
            tag: header[6],
            address: word + lead,
            missing,
            kind,
        });
        rest = match kind {
            Kind::ConfigWrite => &behind[4..],
            _ => behind,
        };
    }
    list
}

impl Owed {
    fn lower(&self) -> u32 {
        self.address & 127
    }

    /// The words up to the end, or sometimes up to a multiple of 64 before it.
    fn some_words(&self, random: &mut Random, split: u32) -> u32 {
        let lead = self.address & 3;
        let all = (lead + self.missing).div_ceil(4);
        let to_line = (64 - (self.address & 63)).div_ceil(4);
        if to_line < all && random.often(split) {
            to_line
        } else {
            all
        }
    }

    /// The next right completion's header and payload; what is owed shrinks.
    pub fn answer(&mut self, random: &mut Random, split: u32) -> ([u8; 12], Vec<u8>) {
        let (words, lower) = match self.kind {
            Kind::Memory => (self.some_words(random, split), self.lower()),
            Kind::ConfigRead => (1, 0),
            Kind::ConfigWrite => (0, 0),
        };
        let header = header(words, 0, self.missing, self.tag, lower);
        let payload: Vec<u8> = (0..words)
            .flat_map(|_| random.below(u32::MAX).to_le_bytes())
            .collect();
        let useful = match self.kind {
            Kind::Memory => (4 * words - (lower & 3)).min(self.missing),
            _ => 4,
        };
        self.address += useful;
        self.missing -= useful;
        (header, payload)
    }

    /// A failing one; nothing more is owed.
    pub fn fail(&mut self, status: u8) -> [u8; 12] {
        let header = header(0, status, self.missing, self.tag, 0);
        self.missing = 0;
        header
    }
}

fn header(words: u32, status: u8, count: u32, tag: u8, lower: u32) -> [u8; 12] {
    let first = if words == 0 { 0x0A } else { 0x4A };
    let [_, _, high, low] = (count & 0xFFF).to_be_bytes();
    [
        first,
        0,
        (words >> 8) as u8 & 3,
        words as u8,
        1,
        0,
        status << 5 | high,
        low,
        0,
        0,
        tag,
        lower as u8,
    ]
}
