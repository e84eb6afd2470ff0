//! Configuration accesses, local and routed.

use super::Random;
use crate::bridge::{Access, Bridge, REGISTERS, WORD_BUSES, WORD_ERRORS, WORD_INFO};

/// Bus numbers that make sense: primary 0, a range above it.
pub fn bus_numbers(bridge: &Bridge, random: &mut Random) -> u32 {
    let most = (1u32 << bridge.settings().bus_bits) - 1;
    let primary = match random.below(6) {
        0 => random.between(0, most),
        _ => 0,
    };
    let secondary = match random.below(4) {
        0 => random.between(0, most),
        _ => 1,
    };
    let subordinate = match random.below(8) {
        0 => random.between(0, 255),
        1 => secondary,
        _ => random.between(secondary, most.max(secondary)),
    };
    primary | secondary << 8 | subordinate << 16 | random.between(0, 255) << 24
}

/// An access to a local word; the primary bus must be reachable.
pub fn local(bridge: &Bridge, random: &mut Random) -> Access {
    let word = match random.below(12) {
        0 => random.between(0, 1023) * 4,
        // Beside 148 and 154, and words that show nothing.
        1 => random.pick(&[0x000, 0x140, 0x14C, 0x150, 0x158]),
        2 => WORD_INFO,
        _ => random.pick(&REGISTERS),
    };
    let write = random.chance(55);
    Access {
        offset: any_device(bridge, word, random),
        write,
        data: match word {
            WORD_BUSES if write => bus_numbers(bridge, random),
            _ => word_data(random),
        },
        strobes: strobes(random),
    }
}

/// A local word by any device and function, and any low two bits.
fn any_device(bridge: &Bridge, word: u32, random: &mut Random) -> u64 {
    let device = match random.below(4) {
        0 => random.between(0, 255),
        _ => 0,
    };
    place(bridge, device << 12 | word | random.between(0, 3))
}

/// On the primary bus.
fn place(bridge: &Bridge, offset: u32) -> u64 {
    let primary = bridge.registers()[0] & 0xFF;
    u64::from(primary << 20 | offset)
}

pub fn local_write(bridge: &Bridge, word: u32, data: u32, strobes: u32) -> Access {
    Access {
        offset: place(bridge, word),
        write: true,
        data,
        strobes,
    }
}

pub fn local_read(bridge: &Bridge, word: u32) -> Access {
    Access {
        offset: place(bridge, word),
        write: false,
        data: 0,
        strobes: 0,
    }
}

/// A write to the queue's word: data and strobes do not matter. Seldom past the
/// end of the space, where it is refused.
pub fn removal(bridge: &Bridge, random: &mut Random) -> Access {
    let past = seldom_past(bridge, random);
    Access {
        offset: any_device(bridge, WORD_ERRORS, random) + past,
        write: true,
        data: word_data(random),
        strobes: match random.below(3) {
            0 => random.pick(&[0, 0, 16]),
            _ => strobes(random),
        },
    }
}

/// What takes an offset past the end of the space, seldom; otherwise nothing.
fn seldom_past(bridge: &Bridge, random: &mut Random) -> u64 {
    match random.below(20) {
        0 => 1 << (20 + bridge.settings().bus_bits),
        _ => 0,
    }
}

/// Primary, secondary and subordinate.
fn buses_of(bridge: &Bridge) -> [u32; 3] {
    let word = bridge.registers()[0];
    [word & 255, word >> 8 & 255, word >> 16 & 255]
}

/// An access meant for a bus below: mostly routed, on the secondary bus mostly
/// to device 0, further below to any device half of the time.
pub fn routed(bridge: &Bridge, random: &mut Random) -> Access {
    let [_, secondary, subordinate] = buses_of(bridge);
    let most = (1u32 << bridge.settings().bus_bits) - 1;
    let bus = match random.below(10) {
        0 => random.between(0, most),
        1..=4 => secondary,
        _ => random.between(secondary.min(subordinate), secondary.max(subordinate)),
    };
    let others = if bus == secondary { 12 } else { 50 };
    let device = match random.chance(others) {
        true => above_zero(random),
        false => 0,
    };
    let word = match random.below(12) {
        0 => WORD_ERRORS,
        _ => random.word() & 0x7FFF,
    };
    let place = device << 15 | word;
    let offset = match random.below(25) {
        0 => random.long(),
        1 => 1 << random.between(20 + bridge.settings().bus_bits, 40),
        _ => u64::from(bus << 20 | place),
    };
    Access {
        offset,
        write: random.chance(45),
        data: random.word(),
        strobes: strobes(random),
    }
}

/// A device that is not 0: often the first, the last or that of W12.
fn above_zero(random: &mut Random) -> u32 {
    match random.chance(25) {
        true => random.pick(&[1, 5, 31]),
        false => random.between(1, 31),
    }
}

/// Mostly a device above 0, often function 0 or 7, on a bus of any kind: primary,
/// secondary, the one after it, subordinate, between them, outside; seldom past
/// the space.
pub fn on_any_bus(bridge: &Bridge, random: &mut Random) -> Access {
    let [primary, secondary, subordinate] = buses_of(bridge);
    let most = (1u32 << bridge.settings().bus_bits) - 1;
    let bus = match random.below(12) {
        0 | 1 => primary,
        2..=4 => secondary,
        5 | 6 => secondary + 1,
        7 | 8 => subordinate,
        9 => random.pick(&[subordinate + 1, secondary.saturating_sub(1)]),
        _ => random.between(secondary.min(subordinate), secondary.max(subordinate)),
    };
    let device = match random.chance(80) {
        true => above_zero(random),
        false => 0,
    };
    let any = random.between(0, 7);
    let function = random.pick(&[0, 7, any, any]);
    let place = device << 15 | function << 12 | random.word() & 0xFFF;
    Access {
        offset: u64::from(bus.min(most) << 20 | place) + seldom_past(bridge, random),
        write: random.chance(45),
        data: random.word(),
        strobes: strobes(random),
    }
}

/// The same access on the secondary bus.
pub fn on_secondary(bridge: &Bridge, access: &Access) -> Access {
    let [_, secondary, _] = buses_of(bridge);
    Access {
        offset: u64::from(secondary) << 20 | access.offset & 0xF_FFFF,
        ..*access
    }
}

/// The same access to a later device of its bus; the first follows the last.
pub fn later_device(access: &Access, steps: u32) -> Access {
    let device = ((access.offset >> 15) + u64::from(steps)) % 32;
    Access {
        offset: access.offset & !(31 << 15) | device << 15,
        ..*access
    }
}

fn word_data(random: &mut Random) -> u32 {
    match random.below(4) {
        0 => 0,
        1 => u32::MAX,
        2 => 1 << random.below(32),
        _ => random.word(),
    }
}

fn strobes(random: &mut Random) -> u32 {
    match random.below(4) {
        0 => random.between(0, 15),
        1 => random.word(),
        _ => 15,
    }
}
