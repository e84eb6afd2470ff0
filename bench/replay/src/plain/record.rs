//! One record of a packed capture (request A5), judged in the order that A5
//! gives: kind, length, padding.

use super::{Access, Burst};

/// Three bytes before a body of up to 4,112.
pub const HEAD_BYTES: usize = 3;
const BODY_BYTES: usize = 4112;
pub const RECORD_BYTES: usize = HEAD_BYTES + BODY_BYTES;

#[derive(Clone, Copy, Debug, PartialEq, Eq)]
pub enum Fault {
    Kind,
    Length,
    Padding,
    Count,
}

#[derive(Clone, Copy, Debug, PartialEq, Eq)]
pub enum Record<'a> {
    End(u32),
    Read(Burst),
    Write(Burst, &'a [u8]),
    Config(Access),
    Completion(&'a [u8]),
    Link(bool),
    Tick,
    Take(u32),
}

/// What stands first in some bytes.
#[derive(Clone, Copy, Debug, PartialEq, Eq)]
pub enum Next<'a> {
    /// Less than a record, and no fault in it yet.
    More,
    /// The fault, and how many bytes were judged.
    Bad(Fault, usize),
    /// A sound record, and the bytes behind it.
    Whole(Record<'a>, &'a [u8]),
}

/// Reads the first record of `bytes`. One branch on the kind, and behind it all
/// that is judged of that kind: it is inlined where the events are played, so
/// that nothing asks for the kind twice.
#[inline(always)]
pub fn next(bytes: &[u8]) -> Next<'_> {
    let &[first, high, low, ref rest @ ..] = bytes else {
        return short(bytes);
    };
    let length = usize::from(u16::from_be_bytes([high, low]));
    // The zero bits of the first byte are padding, judged with the rest of it.
    let clean = first & 15 == 0;
    match first >> 4 {
        0 => fixed(rest, length, |body: &[u8; 4]| {
            clean.then(|| Record::End(u32::from_be_bytes(*body)))
        }),
        1 => fixed(rest, length, |body| {
            let (burst, padded) = burst(body);
            (clean && padded).then_some(Record::Read(burst))
        }),
        2 => bytes_from::<10>(rest, length, |body, packet| {
            let (burst, padded) = burst(body);
            (clean && padded).then_some(Record::Write(burst, &packet[10..]))
        }),
        3 => fixed(rest, length, |body| {
            let (access, padded) = access(body);
            (clean && padded).then_some(Record::Config(access))
        }),
        4 => bytes_from::<12>(rest, length, |_, packet| {
            clean.then_some(Record::Completion(packet))
        }),
        5 => fixed(rest, length, |&[up]: &[u8; 1]| {
            (clean && up & 0x7F == 0).then_some(Record::Link(up != 0))
        }),
        6 => fixed(rest, length, |_: &[u8; 0]| clean.then_some(Record::Tick)),
        7 => fixed(rest, length, |&[slot]: &[u8; 1]| {
            let record = Record::Take(u32::from(slot >> 4));
            (clean && slot & 15 == 0).then_some(record)
        }),
        _ => Next::Bad(Fault::Kind, 1),
    }
}

/// Of one or two bytes only the kind is judged.
#[cold]
fn short(bytes: &[u8]) -> Next<'_> {
    match bytes {
        [first, ..] if first >> 4 > 7 => Next::Bad(Fault::Kind, 1),
        _ => Next::More,
    }
}

/// A body of exactly N bytes; nothing from `read` is bad padding.
#[inline(always)]
fn fixed<'a, const N: usize>(
    rest: &'a [u8],
    length: usize,
    read: impl FnOnce(&'a [u8; N]) -> Option<Record<'a>>,
) -> Next<'a> {
    if length != N {
        return Next::Bad(Fault::Length, HEAD_BYTES);
    }
    let Some((body, behind)) = rest.split_first_chunk() else {
        return Next::More;
    };
    match read(body) {
        Some(record) => Next::Whole(record, behind),
        None => Next::Bad(Fault::Padding, HEAD_BYTES + N),
    }
}

/// A body of N to 4,112 bytes: its first N, and all of it.
#[inline(always)]
fn bytes_from<'a, const N: usize>(
    rest: &'a [u8],
    length: usize,
    read: impl FnOnce(&'a [u8; N], &'a [u8]) -> Option<Record<'a>>,
) -> Next<'a> {
    if !(N..=BODY_BYTES).contains(&length) {
        return Next::Bad(Fault::Length, HEAD_BYTES);
    }
    let Some((body, behind)) = rest.split_at_checked(length) else {
        return Next::More;
    };
    match body.first_chunk().and_then(|start| read(start, body)) {
        Some(record) => Next::Whole(record, behind),
        None => Next::Bad(Fault::Padding, HEAD_BYTES + length),
    }
}

/// A burst's ten bytes, and whether the last three bits are zero.
#[inline(always)]
fn burst(body: &[u8; 10]) -> (Burst, bool) {
    let [address @ .., high, low] = *body;
    let shape = u32::from(u16::from_be_bytes([high, low]));
    let burst = Burst {
        address: u64::from_be_bytes(address),
        size: shape >> 13,
        beats: (shape >> 5 & 255) + 1,
        kind: shape >> 3 & 3,
    };
    (burst, shape & 7 == 0)
}

/// Offset 28 bits, write 1, strobes 4, data 32, and whether the last seven are
/// zero; the first 64 bits are taken as one number.
#[inline(always)]
fn access(body: &[u8; 9]) -> (Access, bool) {
    let [front @ .., last] = *body;
    let front = u64::from_be_bytes(front);
    let write = front >> 35 & 1 == 1;
    // Both are ignored in a read.
    let (strobes, data) = if write {
        let data = (front as u32) << 1 | u32::from(last >> 7);
        ((front >> 31) as u32 & 15, data)
    } else {
        (0, 0)
    };
    let access = Access {
        offset: front >> 36,
        write,
        strobes,
        data,
    };
    (access, last & 0x7F == 0)
}
