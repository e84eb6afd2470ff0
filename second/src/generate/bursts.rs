//! Bursts: mostly lawful and in a window, of all sizes and alignments.

use super::Random;
use crate::burst::Burst;
use crate::settings::{AxiAddress, Settings, Window};

pub fn burst(settings: &Settings, random: &mut Random) -> Burst {
    let mut burst = lawful(settings, random);
    match random.below(100) {
        0..=2 => burst.start = AxiAddress(random.long()),
        3..=4 => burst.start = beside(settings, random),
        5 => burst.size = random.pick(&[6, 7, 8, 255, u32::MAX]),
        6 => burst.beats = random.pick(&[0, 257, 512, u32::MAX]),
        7 => burst.kind = random.pick(&[0, 2, 3, u32::MAX]),
        8..=9 => cross(&mut burst),
        _ => {}
    }
    burst
}

/// A burst that stays in one page of a window.
pub fn lawful(settings: &Settings, random: &mut Random) -> Burst {
    let page = page(settings, random);
    let size = random.between(0, 5);
    let place = place_in_page(random);
    let beat = 1 << size;
    let most = (4096 - place / beat * beat) / beat;
    let beats = match random.below(10) {
        0 | 1 => 1,
        2..=6 => random.between(1, 16),
        7 => 256,
        8 => random.between(1, 256),
        _ => most,
    };
    Burst {
        start: AxiAddress(page + u64::from(place)),
        size,
        beats: beats.min(most).min(256),
        kind: 1,
    }
}

/// The whole first page of some window.
pub fn whole_page(settings: &Settings, random: &mut Random) -> Burst {
    Burst {
        start: AxiAddress(page(settings, random)),
        size: 5,
        beats: 128,
        kind: 1,
    }
}

/// One aligned word.
pub fn one_word(settings: &Settings, random: &mut Random) -> Burst {
    let place = random.between(0, 1023) * 4;
    Burst {
        start: AxiAddress(page(settings, random) + u64::from(place)),
        size: 2,
        beats: 1,
        kind: 1,
    }
}

/// The first, the last or some page of a window.
fn page(settings: &Settings, random: &mut Random) -> u64 {
    let window = random.pick(settings.used());
    let pages = window.size / 4096;
    let page = match random.below(4) {
        0 => 0,
        1 => pages - 1,
        2 => around_4g(&window, random).min(pages - 1),
        _ => random.below(pages),
    };
    window.base + page * 4096
}

/// The page whose target is just below or at 2^32, if the window has it.
fn around_4g(window: &Window, random: &mut Random) -> u64 {
    let past = (1u64 << 32).saturating_sub(window.target) / 4096;
    past.saturating_sub(random.below(2))
}

fn place_in_page(random: &mut Random) -> u32 {
    match random.below(8) {
        0 => 0,
        1 => random.between(0, 31) * 128,
        2 => random.between(1, 31) * 128 - random.between(1, 9),
        3 => 4096 - random.between(1, 40),
        4 | 5 => random.between(0, 1023) * 4,
        _ => random.between(0, 4095),
    }
}

/// Just outside some window, if that exists.
fn beside(settings: &Settings, random: &mut Random) -> AxiAddress {
    let window = random.pick(settings.used());
    let address = match random.chance(50) {
        true => window.base.wrapping_sub(1),
        false => window.base.wrapping_add(window.size),
    };
    AxiAddress(address)
}

/// Runs over the end of its page.
fn cross(burst: &mut Burst) {
    burst.start.0 |= 0xFF8;
    burst.size = 3;
    burst.beats = 2;
}
