//! Settings for a seed: lawful ones, windows at the edges, broken ones.

use super::Random;
use crate::settings::{AxiAddress, Settings, Window};
use crate::traffic::{Header, Making, STORE_LIMIT, VERSION_SESSION};

/// The ways in which `broken` breaks settings.
pub const WAYS: u64 = 19;

const VERSIONS: u64 = VERSION_SESSION as u64;

pub fn header(seed: u64, random: &mut Random) -> Header {
    let mut settings = lawful(seed, random);
    if seed % 8 == 5 {
        broken(&mut settings, seed / 8 % WAYS, random);
    }
    let making = making(seed, &mut settings);
    Header {
        making,
        counter: first_tick(random, settings.time_limit),
        store: store_length(seed, random),
        settings,
    }
}

/// Each version a third of the time; one seed in 32 has a count that alone
/// breaks its rule. Its numbers are its own, so that the events of a seed do not
/// hang on it.
fn making(seed: u64, settings: &mut Settings) -> Making {
    let random = &mut Random::new(seed ^ 0x0115_7000);
    let mut version = random.below(VERSIONS);
    let mut seventh = Window {
        base: random.long(),
        size: random.long(),
        target: random.long(),
    };
    if seed % 32 == 7 {
        // Each version with none and with seven, in turn.
        let turn = seed / 32;
        version = turn % VERSIONS;
        seventh = seven(settings, random);
        settings.count = (turn / VERSIONS % 2) as u32 * 7;
    }
    match version {
        0 => Making::Arrays,
        1 => Making::List(seventh),
        _ => Making::ListAndSession(seventh, first_session(random)),
    }
}

/// Zero, small, anything, or so that a few lives reach the counter's end.
fn first_session(random: &mut Random) -> u32 {
    match random.below(6) {
        0 => 0,
        1 => random.between(1, 9),
        2 => random.word(),
        _ => u32::MAX - random.pick(&[0, 0, 1, 2, 3, 5]),
    }
}

/// Fills all six places, and gives a seventh window that is as lawful.
fn seven(settings: &mut Settings, random: &mut Random) -> Window {
    settings.count = 6;
    place_windows(settings, random);
    beside(&settings.windows, random)
}

/// Mostly the least length; rarely one that is too short for every call.
fn store_length(seed: u64, random: &mut Random) -> u32 {
    match seed % 64 {
        63 => random.between(0, 32_767),
        n if n % 4 == 0 => random.between(32_769, STORE_LIMIT),
        _ => 32_768,
    }
}

/// Zero, anything, or shortly before the counter's end.
fn first_tick(random: &mut Random, time_limit: u32) -> u32 {
    match random.below(4) {
        0 => 0,
        1 => random.word(),
        _ => u32::MAX - random.between(0, time_limit.min(200)),
    }
}

pub fn lawful(seed: u64, random: &mut Random) -> Settings {
    let mut settings = Settings {
        count: random.between(1, 6),
        windows: [Window::default(); 6],
        bus_bits: random.between(1, 8),
        read_limit: 128 << (seed % 6),
        write_limit: 128 << (seed / 6 % 4),
        time_limit: time_limit(random),
        requester: random.pick(&[0, 0x0100, 0xFFFF, 0xA5C3]),
    };
    place_windows(&mut settings, random);
    // Entries past the count are ignored, so they may hold anything.
    for window in &mut settings.windows[settings.count as usize..] {
        window.base = random.long();
        window.size = random.long();
    }
    settings
}

fn time_limit(random: &mut Random) -> u32 {
    match random.below(10) {
        0 => random.between(1, 3),
        1..=3 => random.between(4, 20),
        4..=7 => random.between(21, 200),
        8 => random.between(201, 3000),
        _ => 65_535,
    }
}

fn place_windows(settings: &mut Settings, random: &mut Random) {
    let count = settings.count as usize;
    for index in 0..count {
        settings.windows[index] = beside(&settings.windows[..index], random);
    }
}

/// A lawful window apart from those that are placed.
fn beside(placed: &[Window], random: &mut Random) -> Window {
    loop {
        let candidate = window(random);
        if placed.iter().all(|w| apart(w, &candidate)) {
            return candidate;
        }
    }
}

fn apart(one: &Window, other: &Window) -> bool {
    !one.holds(AxiAddress(other.base)) && !other.holds(AxiAddress(one.base))
}

fn window(random: &mut Random) -> Window {
    let bits = random.pick(&[12, 12, 13, 16, 20, 31, 32, 33, 40]);
    let size = 1u64 << bits;
    Window {
        base: edge(random, size),
        size,
        target: edge(random, size),
    }
}

/// A multiple of `size`: the first, the last, around 2^32, or any.
fn edge(random: &mut Random, size: u64) -> u64 {
    let place = match random.below(8) {
        0 => 0,
        1 => u64::MAX,
        2 => 1 << 32,
        3 => (1 << 32) - 1,
        4 | 5 => u64::from(random.word()),
        _ => random.long(),
    };
    place / size * size
}

/// Breaks one rule.
fn broken(settings: &mut Settings, way: u64, random: &mut Random) {
    let first = &mut settings.windows[0];
    match way {
        0 => settings.count = 0,
        1 => settings.count = 7 + random.word() % 100,
        2 => first.size = 0,
        3 => first.size = 1 << 11,
        4 => *first = same_place(1 << 41),
        5 => *first = same_place(3 << 12),
        6 => first.base |= first.size / 2,
        7 => first.target |= first.size / 2,
        8 => overlap(settings),
        9 => settings.bus_bits = 0,
        10 => settings.bus_bits = 9,
        11 => settings.read_limit = random.pick(&[0, 64, 192, 4095]),
        12 => settings.read_limit = 8192,
        13 => settings.write_limit = random.pick(&[0, 64, 192, 1023]),
        14 => settings.write_limit = 2048,
        15 => settings.time_limit = 0,
        16 => settings.time_limit = 65_536,
        17 => settings.requester = 65_536,
        _ => *first = same_place(1 << 63),
    }
}

fn same_place(size: u64) -> Window {
    Window {
        base: 0,
        size,
        target: 0,
    }
}

/// The second window starts in the first.
fn overlap(settings: &mut Settings) {
    settings.count = settings.count.max(2);
    let first = settings.windows[0];
    settings.windows[1] = Window {
        base: first.base + (first.size - 4096),
        size: 4096,
        target: 0,
    };
}
