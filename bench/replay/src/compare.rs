//! Plays captures, right and damaged, on two engines, and compares what they show.

use crate::engine::{Engine, Lent};
use crate::make::{capture, Mix};
use crate::plain::capture::ROW;
use crate::random::Random;

/// What was compared.
#[derive(Default)]
pub struct Compared {
    pub captures: usize,
    /// Events with every row: one call for all.
    pub whole: u64,
    /// Events played by calls with allowance 1, and with some other.
    pub single: u64,
    pub some: u64,
}

/// The events, the rows, the store and the area are the same.
fn same(one: Engine, other: Engine, input: &[u8], allowance: usize) -> Result<u64, String> {
    let mut first = Lent::new(allowance);
    let mut second = Lent::new(allowance);
    let events = one(input, &mut first, allowance);
    let found = other(input, &mut second, allowance);
    if events != found {
        return Err(format!("{events} events, and {found}"));
    }
    if let Some(place) = (0..first.rows.len()).find(|&i| first.rows[i] != second.rows[i]) {
        let row = place / ROW;
        let range = row * ROW..(row + 1) * ROW;
        let (left, right) = (&first.rows[range.clone()], &second.rows[range]);
        return Err(format!("row {row}: {left:?}, and {right:?}"));
    }
    if first.store != second.store {
        return Err("the stores differ".to_string());
    }
    if first.area != second.area {
        return Err("the areas differ".to_string());
    }
    Ok(events)
}

/// A bit turned, or the end cut off, or both.
fn damage(file: &mut Vec<u8>, random: &mut Random) {
    let ways = 1 + random.below(3);
    if ways & 1 == 1 {
        let index = random.index(file.len());
        file[index] ^= 1 << random.below(8);
    }
    if ways & 2 == 2 {
        let length = random.index(file.len());
        file.truncate(length);
    }
}

/// Of each seed and mix a right capture and a damaged one.
pub fn compare(one: Engine, other: Engine, seeds: u64, events: usize) -> Result<Compared, String> {
    let mut compared = Compared::default();
    for seed in 0..seeds {
        for mix in [Mix::Lively, Mix::Mixed, Mix::Simple, Mix::Ticks] {
            let right = capture(mix, seed, events).bytes;
            let random = &mut Random::new(!seed);
            let mut damaged = right.clone();
            damage(&mut damaged, random);
            for (file, what) in [(&right, "right"), (&damaged, "damaged")] {
                let place = |why| format!("{mix:?}, seed {seed}, {what}: {why}");
                // An event has three bytes or more.
                compared.whole += same(one, other, file, file.len() / 3 + 1).map_err(place)?;
                compared.single += same(one, other, file, 1).map_err(place)?;
                compared.some += same(one, other, file, 2 + random.index(60)).map_err(place)?;
                compared.captures += 1;
            }
        }
    }
    Ok(compared)
}

/// A long capture, with every row.
pub fn compare_long(one: Engine, other: Engine, input: &[u8]) -> Result<u64, String> {
    same(one, other, input, input.len() / 3 + 1)
}
