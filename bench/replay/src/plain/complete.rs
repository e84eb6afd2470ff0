//! Completions: the header, the tests on it, and where its data goes.

use super::tables::{Owner, Piece};
use super::words::{ABORT, POISON, UNEXPECTED, UNSUPPORTED};
use super::{Answer, Bridge, Response, SLOT_BYTES, STORE_BYTES, TAGS};

struct Completion<'a> {
    with_data: bool,
    poisoned: bool,
    status: u32,
    count: u32,
    requester: u32,
    tag: u32,
    lower: u32,
    payload: &'a [u8],
}

const FAILED_ABORT: u32 = 4;
const FAILED_RETRY: u32 = 2;

impl<'a> Completion<'a> {
    /// Nothing where refusal 12 is due.
    #[inline]
    fn read(bytes: &'a [u8]) -> Option<Completion<'a>> {
        let (head, payload) = bytes.split_first_chunk::<12>()?;
        let [one, two, three] =
            [0, 4, 8].map(|i| u32::from_be_bytes([head[i], head[i + 1], head[i + 2], head[i + 3]]));
        // Reserved bits, and the rest of what must be zero.
        let with_data = one & !0x43FF == 0x4A00_0000;
        let status = two >> 13 & 7;
        let words = if with_data {
            if status != 0 {
                return None;
            }
            from_one(one, 1024)
        } else if one == 0x0A00_0000 {
            0
        } else {
            return None;
        };
        if two & 0x1000 != 0 || three & 0x80 != 0 || payload.len() != 4 * words as usize {
            return None;
        }
        Some(Completion {
            with_data,
            poisoned: one & 0x4000 != 0,
            status,
            count: from_one(two, 4096),
            requester: three >> 16,
            tag: three >> 8 & 0xFF,
            lower: three & 0x7F,
            payload,
        })
    }

    /// Success with data, and what is due next.
    #[inline]
    fn continues(&self, piece: &Piece) -> bool {
        let missing = u32::from(piece.missing);
        self.with_data
            && self.count == missing
            && self.lower == u32::from(piece.lower)
            && (self.payload.len() as u32) < (self.lower & 3) + missing + 4
    }

    /// A configuration request's success.
    fn answers(&self, write: bool) -> bool {
        let payload = if write { 0 } else { 4 };
        self.count == 4 && self.lower == 0 && self.payload.len() == payload
    }
}

/// A field in which the power of two `top` is written as 0: 1 to `top`.
#[inline]
fn from_one(bits: u32, top: u32) -> u32 {
    (bits.wrapping_sub(1) & (top - 1)) + 1
}

impl Bridge {
    /// Order: 8, 12, 13.
    #[inline]
    pub fn complete(&mut self, bytes: &[u8], store: &mut [u8]) -> Answer {
        let Some(store) = store.first_chunk_mut::<STORE_BYTES>() else {
            return Answer::refused(8);
        };
        let Some(completion) = Completion::read(bytes) else {
            return Answer::refused(12);
        };
        let tag = completion.tag;
        let is_ours = completion.requester == self.settings.requester;
        if !is_ours || tag >= TAGS as u32 || self.open >> tag & 1 == 0 {
            return self.discard();
        }
        let piece = self.pieces[tag as usize];
        match (piece.owner, completion.status) {
            (Owner::Read, 0) if completion.continues(&piece) => {
                self.take_data(tag, &completion, store);
            }
            (Owner::Read, 0 | FAILED_RETRY) => return self.discard(),
            (Owner::Read, status) => {
                let (bit, response) = match status {
                    FAILED_ABORT => (ABORT, Response::Slverr),
                    _ => (UNSUPPORTED, Response::Decerr),
                };
                self.decode |= bit;
                self.slots[usize::from(piece.slot)].fail(piece.rank, response);
                self.close_piece(tag);
                self.piece_closed(piece.slot, store);
            }
            (owner, 0) if !completion.answers(owner == Owner::ConfigWrite) => {
                return self.discard();
            }
            (owner, _) => {
                let (response, data) = config_answer(owner == Owner::ConfigWrite, &completion);
                self.close_piece(tag);
                self.finish_config(response, data);
            }
        }
        Answer::DONE
    }

    #[inline]
    fn take_data(&mut self, tag: u32, from: &Completion, store: &mut [u8; STORE_BYTES]) {
        let piece = &mut self.pieces[tag as usize % TAGS];
        let skip = usize::from(piece.lower & 3);
        let useful = &from.payload[skip..];
        let count = useful.len().min(usize::from(piece.missing));
        if from.poisoned {
            self.decode |= POISON;
            self.slots[usize::from(piece.slot)].fail(piece.rank, Response::Slverr);
        } else {
            let place = usize::from(piece.place);
            store[place..place + count].copy_from_slice(&useful[..count]);
        }
        piece.place += count as u16;
        piece.missing -= count as u16;
        piece.lower = piece.lower.wrapping_add(count as u8) & 127;
        if piece.missing == 0 {
            let slot = piece.slot;
            self.close_piece(tag);
            self.piece_closed(slot, store);
        }
    }

    /// A read is finished with its last piece.
    #[inline]
    pub(super) fn piece_closed(&mut self, slot: u8, store: &mut [u8; STORE_BYTES]) {
        let read = &mut self.slots[usize::from(slot)];
        read.pieces -= 1;
        if read.pieces == 0 {
            self.finished |= 1 << slot;
            if read.response != Response::Okay {
                clear(store, usize::from(slot), read.length);
            }
        }
    }

    #[cold]
    fn discard(&mut self) -> Answer {
        self.decode |= UNEXPECTED;
        Answer::refused(13)
    }
}

/// A failed or ended read has zeros.
#[cold]
pub(super) fn clear(store: &mut [u8; STORE_BYTES], slot: usize, length: u16) {
    store[slot * SLOT_BYTES..][..usize::from(length)].fill(0);
}

fn config_answer(write: bool, completion: &Completion) -> (Response, u32) {
    match completion.status {
        0 if completion.poisoned => (Response::Slverr, 0),
        0 => {
            let word = completion.payload.first_chunk().copied();
            (Response::Okay, word.map_or(0, u32::from_le_bytes))
        }
        FAILED_RETRY | FAILED_ABORT => (Response::Slverr, 0),
        _ if write => (Response::Slverr, 0),
        _ => (Response::Okay, u32::MAX),
    }
}
