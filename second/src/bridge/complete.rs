//! Completions (01, "Completions").

use super::{Bridge, Cause, Owner, Piece, SLOT_BYTES, STORE_BYTES};
use super::{BIT_CA, BIT_POISON, BIT_UNEXPECTED, BIT_UR};
use crate::answer::{Answer, Response};
use crate::header::{read_completion, Completion};

impl Bridge {
    /// Order: 8, 12, 13.
    pub fn complete(&mut self, bytes: &[u8], store: &mut [u8]) -> Answer {
        if store.len() < STORE_BYTES {
            return Answer::refused(8);
        }
        let Some((header, payload)) = well_formed(bytes) else {
            return Answer::refused(12);
        };
        let Some(index) = self.expecting_piece(&header) else {
            self.set_bit(BIT_UNEXPECTED);
            return Answer::refused(13);
        };
        match self.pieces[index].owner {
            Owner::Read(slot) => self.complete_read(index, slot, &header, payload, store),
            owner => self.complete_config(index, owner, &header, payload),
        }
        Answer::accepted()
    }

    /// "It is expected if the requester ID is ours, the tag is open, and ..."
    fn expecting_piece(&self, header: &Completion) -> Option<usize> {
        if header.requester != self.settings.requester {
            return None;
        }
        let index = self.pieces.iter().position(|p| p.tag == header.tag)?;
        expects(&self.pieces[index], header).then_some(index)
    }

    fn complete_read(
        &mut self,
        index: usize,
        slot: u32,
        header: &Completion,
        payload: &[u8],
        store: &mut [u8],
    ) {
        if header.status == 0 {
            self.take_data(index, slot, header, payload, store);
        } else {
            self.fail_by_status(index, slot, header.status);
        }
        // "A piece closes, and its tag is free, at zero missing or a failing
        // status."
        if header.status != 0 || self.pieces[index].missing == 0 {
            self.pieces.remove(index);
            self.settle_read(slot, store);
        }
    }

    /// "Good data goes to its place in the slot. Poisoned data (EP) only counts
    /// down and marks the piece failed."
    fn take_data(
        &mut self,
        index: usize,
        slot: u32,
        header: &Completion,
        payload: &[u8],
        store: &mut [u8],
    ) {
        let piece = &mut self.pieces[index];
        let skip = header.lower % 4;
        // "Useful bytes: the smaller of 4 x length - lower mod 4 and the
        // missing count."
        let useful = (4 * header.length - skip).min(piece.missing);
        if !header.poisoned {
            let to = slot as usize * SLOT_BYTES + piece.place as usize;
            let from = skip as usize;
            let count = useful as usize;
            store[to..to + count].copy_from_slice(&payload[from..from + count]);
        }
        piece.missing -= useful;
        piece.place += useful;
        // A piece may end with the last byte below 2^64.
        piece.next.0 = piece.next.0.wrapping_add(u64::from(useful));
        let rank = piece.rank;
        if header.poisoned {
            self.set_bit(BIT_POISON);
            self.note_failure(slot, rank, Cause::Poison);
        }
    }

    /// "UR: DECERR, bit 20 ... CA: SLVERR, 24"; "others as UR".
    fn fail_by_status(&mut self, index: usize, slot: u32, status: u32) {
        let (cause, bit) = match status {
            4 => (Cause::Abort, BIT_CA),
            _ => (Cause::Unsupported, BIT_UR),
        };
        self.set_bit(bit);
        self.note_failure(slot, self.pieces[index].rank, cause);
    }

    /// "If a poisoned piece fails again later, the first cause gives its
    /// response".
    pub(super) fn note_failure(&mut self, slot: u32, rank: u32, cause: Cause) {
        let read = self.reads.iter_mut().find(|r| r.slot == slot);
        let failures = &mut read.expect("an open piece has its read").failures;
        if failures.iter().all(|(r, _)| *r != rank) {
            failures.push((rank, cause));
        }
    }

    /// "A read is finished when all pieces are closed: OKAY, or the response of
    /// the first failed piece in address order, and then the burst's whole
    /// length in the slot is zero."
    pub(super) fn settle_read(&mut self, slot: u32, store: &mut [u8]) {
        if self.pieces.iter().any(|p| p.owner == Owner::Read(slot)) {
            return;
        }
        let read = self.reads.iter_mut().find(|r| r.slot == slot);
        let read = read.expect("a settled slot has its read");
        let first = read.failures.iter().min_by_key(|(rank, _)| *rank);
        read.finished = Some(match first {
            None => Response::Okay,
            Some((_, Cause::Unsupported)) => Response::Decerr,
            Some(_) => Response::Slverr,
        });
        if first.is_some() {
            clear_slot(store, slot, read.length);
        }
    }

    /// "A configuration access is one piece, closed by its first expected
    /// completion".
    fn complete_config(&mut self, index: usize, owner: Owner, header: &Completion, payload: &[u8]) {
        self.pieces.remove(index);
        let write = owner == Owner::ConfigWrite;
        let (response, data) = match header.status {
            0 if header.poisoned => (Response::Slverr, 0),
            0 if write => (Response::Okay, 0),
            0 => (Response::Okay, low_byte_first(payload)),
            2 | 4 => (Response::Slverr, 0),
            // "UR read gives OKAY and all ones; UR write SLVERR."
            _ if write => (Response::Slverr, 0),
            _ => (Response::Okay, 0xFFFF_FFFF),
        };
        self.config_slot.finish(response, data);
    }
}

/// Header and payload, or nothing where refusal 12 is due: "Payload is 4 x
/// length bytes."
fn well_formed(bytes: &[u8]) -> Option<(Completion, &[u8])> {
    let header = read_completion(bytes.get(..12)?)?;
    let payload = &bytes[12..];
    (payload.len() == 4 * header.length as usize).then_some((header, payload))
}

/// The tests of an open piece on a completion that has its tag.
fn expects(piece: &Piece, header: &Completion) -> bool {
    match (piece.owner, header.status) {
        (Owner::Read(_), 0) => expects_data(piece, header),
        (Owner::ConfigRead, 0) => {
            header.data && header.length == 1 && header.count == 4 && header.lower == 0
        }
        (Owner::ConfigWrite, 0) => !header.data && header.count == 4 && header.lower == 0,
        // "CRS only for configuration"
        (Owner::Read(_), 2) => false,
        // "a failing status, whose count and lower address are not tested"
        _ => true,
    }
}

/// "success with data, byte count equal to the bytes still missing, lower
/// address equal to the next address mod 128, and 4 x length below lower mod 4
/// + missing + 4"
fn expects_data(piece: &Piece, header: &Completion) -> bool {
    header.data
        && header.count == piece.missing
        && u64::from(header.lower) == piece.next.0 % 128
        && 4 * header.length < header.lower % 4 + piece.missing + 4
}

pub(super) fn clear_slot(store: &mut [u8], slot: u32, length: u32) {
    let from = slot as usize * SLOT_BYTES;
    store[from..from + length as usize].fill(0);
}

fn low_byte_first(payload: &[u8]) -> u32 {
    payload
        .iter()
        .rev()
        .fold(0, |sum, b| sum << 8 | u32::from(*b))
}
