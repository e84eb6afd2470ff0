//! Times engines on a capture in memory.

use crate::engine::{Engine, Lent};
use crate::make::Capture;
use std::hint::black_box;
use std::time::Instant;

/// Events that one call may play.
pub const ALLOWANCE: usize = 4096;

/// Nanoseconds an event.
#[derive(Clone, Copy)]
pub struct Figure {
    /// The middle round, and the quickest.
    pub median: f64,
    pub least: f64,
}

/// The figure of each engine. A round times one after the other, so that what
/// else the machine does meets all of them; each round begins with another.
pub fn measure<const N: usize>(
    engines: [Engine; N],
    capture: &Capture,
    rounds: usize,
) -> [Figure; N] {
    let mut lent = Lent::new(ALLOWANCE);
    let mut times = [const { Vec::new() }; N];
    // One round more, not counted, to warm up.
    for round in 0..=rounds {
        for turn in 0..N {
            let index = (round + turn) % N;
            lent.store.fill(0);
            lent.area.fill(0);
            let start = Instant::now();
            let played = engines[index](black_box(&capture.bytes), &mut lent, ALLOWANCE);
            black_box(&lent.rows);
            let time = start.elapsed().as_nanos() as f64;
            assert_eq!(played, capture.events as u64);
            if round > 0 {
                times[index].push(time / capture.events as f64);
            }
        }
    }
    times.map(|mut rounds| {
        rounds.sort_by(f64::total_cmp);
        Figure {
            median: rounds[rounds.len() / 2],
            least: rounds[0],
        }
    })
}
