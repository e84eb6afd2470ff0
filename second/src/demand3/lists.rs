//! The lists of completions that an honest far side sends for its requests.

use crate::generate::far::{packet, Kind, Owed};
use crate::generate::Random;
use crate::header::Completion;

/// One completion of a list.
pub struct Item {
    pub bytes: Vec<u8>,
    /// The bytes it sends.
    pub useful: Vec<u8>,
    /// Good, the tag taken as open and the bytes not yet sent as missing.
    pub good: bool,
    /// It will not come.
    pub lost: bool,
}

/// A lawful list for a request: "nothing follows the last byte or a failing
/// status", "a configuration request has at most one completion".
pub fn list_for(owed: &Owed, random: &mut Random) -> Vec<Item> {
    match owed.kind {
        Kind::Memory if random.chance(8) => strided_list(owed.clone(), random),
        Kind::Memory => memory_list(owed.clone(), random),
        _ => config_list(owed, random),
    }
}

fn memory_list(mut owed: Owed, random: &mut Random) -> Vec<Item> {
    let mut list = Vec::new();
    // Half of the far sides make no mistakes at all.
    let careful = random.chance(50);
    while owed.left > 0 {
        let roll = if careful { 99 } else { random.below(100) };
        match roll {
            0..=2 => {
                list.push(without_data(
                    &owed,
                    random.pick(&[1, 3, 4, 5, 6, 7]),
                    random,
                ));
                break;
            }
            3 => break,
            4 | 5 => list.push(without_data(&owed, 0, random)),
            6 => list.push(without_data(&owed, 2, random)),
            _ => list.push(data_item(&mut owed, roll, random)),
        }
    }
    list
}

/// Stretches that end at multiples of 128, so that a lost one is not seen in the
/// lower address, with more words than are due.
fn strided_list(mut owed: Owed, random: &mut Random) -> Vec<Item> {
    let mut list = Vec::new();
    // How many words were due before each stretch.
    let mut due = Vec::new();
    while owed.left > 0 {
        due.push(owed.words_left());
        let words = match random.chance(35) {
            true => random.pick(&due),
            false => (32 - owed.lower() / 4).min(owed.words_left()),
        };
        let mut item = send_words(&mut owed, words, 99, random);
        item.lost = random.chance(35);
        list.push(item);
    }
    list
}

fn without_data(owed: &Owed, status: u32, random: &mut Random) -> Item {
    let mut value = owed.status(status, random);
    if random.chance(10) {
        value.requester ^= 1;
    }
    Item {
        bytes: packet(&value, random),
        useful: Vec::new(),
        good: false,
        lost: false,
    }
}

/// States the bytes not yet sent and the next address, and sends its useful
/// bytes; sometimes poisoned, too long or with another requester ID.
fn data_item(owed: &mut Owed, roll: u64, random: &mut Random) -> Item {
    let mut words = owed.some_words(random);
    if roll == 7 && owed.words_left() < 1024 {
        words = random.between(owed.words_left() + 1, 1024.min(owed.words_left() + 9));
    }
    send_words(owed, words, roll, random)
}

fn send_words(owed: &mut Owed, words: u32, roll: u64, random: &mut Random) -> Item {
    let too_long = words > owed.words_left();
    let mut value = owed.right(words, random);
    match roll {
        8..=10 => value.poisoned = true,
        11 | 12 => value.requester ^= 0x8000 >> random.below(16),
        _ => {}
    }
    let good = !too_long && !(8..=12).contains(&roll);
    let bytes = packet(&value, random);
    let useful = owed.useful(words);
    let from = 12 + (owed.lower() % 4) as usize;
    let sent = bytes[from..from + useful as usize].to_vec();
    owed.next = owed.next.wrapping_add(u64::from(useful));
    owed.left -= useful;
    Item {
        bytes,
        useful: sent,
        good,
        lost: false,
    }
}

fn config_list(owed: &Owed, random: &mut Random) -> Vec<Item> {
    let mut value = owed.right(1, random);
    match random.below(16) {
        0 => return Vec::new(),
        1 => value = owed.status(1, random),
        2 => value = owed.status(2, random),
        3 => value = owed.status(4, random),
        4 => value.poisoned = value.data,
        5 => value.count = random.between(5, 4096),
        6 => value.requester ^= 1,
        7 => wrong_shape(&mut value),
        _ => {}
    }
    let good = value.status == 0 && value == owed_right(owed, &value);
    let bytes = packet(&value, random);
    let useful = bytes[12..].to_vec();
    vec![Item {
        bytes,
        useful,
        good,
        lost: false,
    }]
}

fn wrong_shape(value: &mut Completion) {
    value.data = !value.data;
    value.length = u32::from(value.data);
}

/// The right completion, apart from the completer, that any may be.
fn owed_right(owed: &Owed, value: &Completion) -> Completion {
    let data = owed.kind == Kind::ConfigRead;
    Completion {
        data,
        poisoned: false,
        length: u32::from(data),
        completer: value.completer,
        status: 0,
        count: 4,
        requester: owed.requester,
        tag: owed.tag,
        lower: 0,
    }
}
