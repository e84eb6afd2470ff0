//! What is compared and timed: a capture played from its start, by calls.

use crate::plain::capture::{play, Reader, Verdict, ROW};
use crate::plain::record::RECORD_BYTES;
use crate::plain::{Bridge, AREA_BYTES, STORE_BYTES};

/// What is lent to an engine.
#[derive(Clone, PartialEq, Eq)]
pub struct Lent {
    pub store: Vec<u8>,
    pub area: Vec<u8>,
    pub rows: Vec<u64>,
    /// The proved engine keeps the start of a record here; the plain one has
    /// its own room for that.
    pub held: Vec<u8>,
}

impl Lent {
    /// Rows for calls with this allowance.
    pub fn new(allowance: usize) -> Lent {
        Lent {
            store: vec![0; STORE_BYTES],
            area: vec![0; AREA_BYTES],
            rows: vec![0; ROW * allowance],
            held: vec![0; RECORD_BYTES],
        }
    }
}

/// Plays the input on a fresh whiteboard bridge, by calls with one allowance,
/// each on what the last has not read and with its rows from the start of the
/// slice, until it is read, its end or a fault is met, or a call reads nothing;
/// hands back how many events were played.
pub type Engine = fn(input: &[u8], lent: &mut Lent, allowance: usize) -> u64;

/// The plain version.
#[inline(never)]
pub fn plain(input: &[u8], lent: &mut Lent, allowance: usize) -> u64 {
    let mut bridge = Bridge::default();
    let mut reader = Reader::default();
    let (store, area) = (&mut lent.store, &mut lent.area);
    let mut rest = input;
    let mut events = 0;
    while !rest.is_empty() {
        let rows = &mut lent.rows;
        let result = play(&mut bridge, &mut reader, store, area, rows, rest, allowance);
        events += result.played as u64;
        rest = &rest[result.consumed..];
        if result.consumed == 0 || !matches!(reader.verdict(), Verdict::Cut(_)) {
            break;
        }
    }
    events
}
