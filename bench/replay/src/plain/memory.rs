//! Memory reads and writes: the burst, its cutting and its requests.

use super::tables::{Owner, Piece, Slot, NONE_FAILED};
use super::words::BURST;
use super::{Answer, Bridge, Response, AREA_BYTES, READ_SLOTS, SLOT_BYTES};

const PAGE: u32 = 4096;

#[derive(Clone, Copy, Debug, PartialEq, Eq)]
pub struct Burst {
    pub address: u64,
    /// 2^size bytes a beat.
    pub size: u32,
    pub beats: u32,
    /// 1 is INCR.
    pub kind: u32,
}

impl Burst {
    /// The bytes that it covers, or nothing where refusal 3 is due. A beat is
    /// at most 32 bytes, so rounding down stays in the page.
    #[inline]
    fn length(&self) -> Option<u32> {
        if self.size > 5 || self.beats.wrapping_sub(1) > 255 || self.kind != 1 {
            return None;
        }
        let start = self.address as u32 % PAGE;
        let end = (start >> self.size).wrapping_add(self.beats) << self.size;
        (end <= PAGE).then(|| end - start)
    }
}

/// One request's stretch of bytes.
#[derive(Clone, Copy)]
struct Stretch {
    address: u64,
    length: u32,
}

impl Stretch {
    /// The first of `left` bytes from `address`, up to a multiple of the limit.
    #[inline]
    fn first(address: u64, left: u32, limit: u32) -> Stretch {
        let room = limit - (address as u32 & (limit - 1));
        Stretch {
            address,
            length: room.min(left),
        }
    }

    /// Bytes of the first word before the first wanted one.
    #[inline]
    fn lead(self) -> u32 {
        self.address as u32 & 3
    }

    #[inline]
    fn words(self) -> u32 {
        (self.lead() + self.length).div_ceil(4)
    }

    /// Last byte enables, then first ones.
    #[inline]
    fn enables(self) -> u32 {
        let first = 15 << self.lead() & 15;
        let last = 15 >> ((self.lead() + self.length).wrapping_neg() & 3);
        if self.words() == 1 {
            first & last
        } else {
            last << 4 | first
        }
    }

    /// The header's N bytes: a short address takes 12, a long one 16.
    #[inline(always)]
    fn header<const N: usize>(self, format: u32, requester: u32, tag: u32) -> [u8; N] {
        let start = format << 24 | (self.words() & 0x3FF);
        let who = requester << 16 | tag << 8 | self.enables();
        let low = self.address as u32 & !3;
        if N == 16 {
            let high = (self.address >> 32) as u32;
            join([start | 0x2000_0000, who, high, low])
        } else {
            join([start, who, low, 0])
        }
    }
}

/// The first N bytes of some words, high byte first.
#[inline(always)]
pub(super) fn join<const N: usize>(words: [u32; 4]) -> [u8; N] {
    let all = words
        .into_iter()
        .fold(0, |all, word| all << 32 | u128::from(word));
    *all.to_be_bytes().first_chunk().expect("N is at most 16")
}

#[inline]
fn is_long(address: u64) -> bool {
    address >> 32 != 0
}

impl Bridge {
    /// Order: 8, 3, 2, 4, 5, 6, 7.
    #[inline]
    pub fn read(&mut self, burst: Burst, area: &mut [u8]) -> Answer {
        let Some(area) = area.first_chunk_mut::<AREA_BYTES>() else {
            return Answer::refused(8);
        };
        let Some(length) = burst.length() else {
            return self.refuse_burst();
        };
        let Some(start) = self.settings.translate(burst.address) else {
            return Answer::refused(2);
        };
        if !self.link_up {
            return Answer::refused(4);
        }
        if self.config_read_open {
            return Answer::refused(5);
        }
        let slot = (!self.used).trailing_zeros();
        if slot >= READ_SLOTS {
            return Answer::refused(6);
        }
        let limit = self.settings.read_limit;
        let inside = start as u32 & (limit - 1);
        let pieces = ((inside + length - 1) >> limit.trailing_zeros()) + 1;
        if self.free.count_ones() < pieces {
            return Answer::refused(7);
        }
        self.used |= 1 << slot;
        self.slots[slot as usize] = Slot {
            session: self.session,
            data: 0,
            length: length as u16,
            pieces: pieces as u8,
            failed: NONE_FAILED,
            response: Response::Okay,
        };
        let sent = if is_long(start) {
            self.send_reads::<16>(start, length, slot, area)
        } else {
            self.send_reads::<12>(start, length, slot, area)
        };
        Answer {
            slot,
            sent,
            ..Answer::DONE
        }
    }

    /// One header of N bytes a piece.
    #[inline(always)]
    fn send_reads<const N: usize>(
        &mut self,
        start: u64,
        length: u32,
        slot: u32,
        area: &mut [u8; AREA_BYTES],
    ) -> u32 {
        let mut done = 0;
        let mut sent = 0;
        for (rank, place) in area.as_chunks_mut::<N>().0.iter_mut().enumerate() {
            let address = start + u64::from(done);
            let stretch = Stretch::first(address, length - done, self.settings.read_limit);
            let tag = self.open_piece(Piece {
                born: self.now,
                place: (slot as usize * SLOT_BYTES) as u16 + done as u16,
                missing: stretch.length as u16,
                lower: address as u8 & 127,
                slot: slot as u8,
                rank: rank as u8,
                owner: Owner::Read,
            });
            *place = stretch.header(0, self.settings.requester, tag);
            done += stretch.length;
            sent += N as u32;
            if done == length {
                break;
            }
        }
        sent
    }

    /// Order: 8, 3, 2, 15, 4.
    #[inline(never)]
    pub fn write(&mut self, burst: Burst, data: &[u8], area: &mut [u8]) -> Answer {
        let Some(area) = area.first_chunk_mut::<AREA_BYTES>() else {
            return Answer::refused(8);
        };
        let Some(length) = burst.length() else {
            return self.refuse_burst();
        };
        let Some(start) = self.settings.translate(burst.address) else {
            return Answer::refused(2);
        };
        if data.len() != length as usize {
            return Answer::refused(15);
        }
        if !self.link_up {
            return Answer::refused(4);
        }
        let sent = if is_long(start) {
            self.send_writes::<16>(start, data, area)
        } else {
            self.send_writes::<12>(start, data, area)
        };
        Answer {
            response: Response::Okay,
            sent,
            ..Answer::DONE
        }
    }

    /// A header of N bytes and its words for each piece.
    #[inline]
    fn send_writes<const N: usize>(
        &self,
        start: u64,
        mut data: &[u8],
        area: &mut [u8; AREA_BYTES],
    ) -> u32 {
        let mut address = start;
        let mut sent = 0;
        while !data.is_empty() {
            let stretch = Stretch::first(address, data.len() as u32, self.settings.write_limit);
            let words = 4 * stretch.words() as usize;
            let packet = &mut area[sent..sent + N + words];
            let (header, body) = packet.split_first_chunk_mut::<N>().expect("its N bytes");
            *header = stretch.header(0x40, self.settings.requester, 0);
            // Only the first and the last word have unwanted bytes.
            body[..4].fill(0);
            body[words - 4..].fill(0);
            let (piece, rest) = data.split_at(stretch.length as usize);
            let lead = stretch.lead() as usize;
            body[lead..lead + piece.len()].copy_from_slice(piece);
            data = rest;
            address = address.wrapping_add(u64::from(stretch.length));
            sent += N + words;
        }
        sent as u32
    }

    #[cold]
    fn refuse_burst(&mut self) -> Answer {
        self.decode |= BURST;
        Answer::refused(3)
    }
}
