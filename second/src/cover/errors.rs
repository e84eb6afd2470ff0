//! Watches error messages, their queue and the words that show it (02, request
//! A1).

use super::{classify, Coverage, Memory};
use crate::answer::Answer;
use crate::bridge::{Access, Bridge, QUEUE_DEPTH};
use crate::bridge::{ERROR_BITS, NOT_EMPTY, OVERFLOW, TYPE_SHIFT, VALID};
use crate::bridge::{WORD_DECODE, WORD_ERRORS, WORD_STATUS};

const PLAIN: &str = "
message: the same as the one before it
overflow: flag set already
overflow: leaves a bit of 9 to 11 clear
queue: full after removals
queue: an entry past the 32nd becomes the oldest
removal: empty queue
removal: leaves 0
removal: leaves 1
removal: leaves 31
removal: strobes 0
removal: strobes 16, which is 0 mod 16
removal: strobes 0, empty queue
removal: byte with the valid bit not chosen
removal: data zero
removal: link down
removal: by another device
removal: flag stays
removal: not by a routed write
clear: blocked by the queue
clear: blocked by a full queue
clear: blocked by one entry
clear: blocked, flag set
clear: blocked, but not the other ones
clear: queue empty
clear: queue empty, flag set
clear: some of the bits
clear: queue empty, byte not chosen
flag: cleared, queue full
flag: cleared, queue in between
flag: cleared, queue empty
flag: byte not chosen
flag: written with zero
flag: a one to bit 16, queue not empty
drop: keeps the queue
drop: keeps a full queue
drop: keeps the flag
drop: keeps the flag of an empty queue
drop: then a message behind those that were kept
line: bits 9 to 11 alone, kept low by 134
";

/// The points of this file.
pub fn required() -> Vec<String> {
    let mut list: Vec<String> = PLAIN.lines().skip(1).map(String::from).collect();
    let mut add = |point: String| list.push(point);
    for code in ["30", "31", "33"] {
        add(format!("message: code {code} accepted"));
        add(format!("message: code {code} with the link down"));
        add(format!("message: code {code}, its bit set already"));
        add(format!("overflow: code {code}"));
        add(format!("overflow: code {code} sets its bit"));
    }
    for flaw in classify::MESSAGE_FLAWS {
        for link in ["up", "down"] {
            add(format!("message: {flaw}, link {link}"));
        }
    }
    for length in [1, 31, 32] {
        add(format!("queue: {length} after a message"));
    }
    for number in [5, 8, 9] {
        add(format!("removal: refused with {number}"));
    }
    for word in [0, NOT_EMPTY, OVERFLOW, NOT_EMPTY | OVERFLOW] {
        add(format!("148: reads {word:08X}"));
    }
    add("154: reads 0".to_string());
    for number in 0..3 {
        add(format!("154: reads type {number}"));
    }
    for bit in 9..12 {
        add(format!("line: high through bit {bit} alone"));
    }
    list
}

fn queued(bridge: &Bridge) -> usize {
    bridge.errors().entries().len()
}

fn decode(bridge: &Bridge) -> u32 {
    bridge.registers()[2]
}

/// The bytes that strobes choose, as bits of a word.
fn chosen(strobes: u32) -> u32 {
    let byte = |i: u32| if strobes >> i & 1 == 1 { 0xFF } else { 0 };
    (0..4).fold(0, |sum, i| sum | byte(i) << (8 * i))
}

impl Coverage {
    pub(super) fn message(
        &mut self,
        before: &Bridge,
        bytes: &[u8],
        number: u32,
        after: &Bridge,
        memory: &mut Memory,
    ) {
        match number {
            12 => {
                let link = if before.link_is_up() { "up" } else { "down" };
                if let Some(flaw) = classify::message_flaw(bytes) {
                    self.hit(format!("message: {flaw}, link {link}"));
                }
            }
            4 => self.hit(format!("message: code {:02X} with the link down", bytes[7])),
            _ => {
                self.queued_message(before, bytes[7], after);
                let fills = queued(before) + 1 == QUEUE_DEPTH;
                let full = fills && !memory.removed.is_multiple_of(QUEUE_DEPTH);
                self.hit_if(full, "queue: full after removals");
                let behind = memory.kept && queued(before) > 0;
                self.hit_if(behind, "drop: then a message behind those that were kept");
                memory.kept = false;
            }
        }
    }

    fn queued_message(&mut self, before: &Bridge, code: u8, after: &Bridge) {
        self.hit(format!("message: code {code:02X} accepted"));
        let sets = decode(before) != decode(after);
        let point = format!("message: code {code:02X}, its bit set already");
        self.hit_if(!sets, point);
        if queued(before) < QUEUE_DEPTH {
            let newest = |bridge: &Bridge| bridge.errors().entries().back().copied();
            let same = newest(before) == newest(after);
            self.hit_if(same, "message: the same as the one before it");
            self.hit(format!("queue: {} after a message", queued(after)));
            return;
        }
        self.hit(format!("overflow: code {code:02X}"));
        self.hit_if(sets, format!("overflow: code {code:02X} sets its bit"));
        let clear = decode(after) & ERROR_BITS != ERROR_BITS;
        self.hit_if(clear, "overflow: leaves a bit of 9 to 11 clear");
        let again = before.errors().overflowed();
        self.hit_if(again, "overflow: flag set already");
    }

    /// A configuration access, of which some are to the words of the queue.
    pub(super) fn error_words(
        &mut self,
        before: &Bridge,
        access: &Access,
        answer: &Answer,
        memory: &mut Memory,
    ) {
        let word = access.offset as u32 & 0xFFC;
        match (answer.number, access.write) {
            (0, true) if answer.sent > 0 => {
                let same = word == WORD_ERRORS && queued(before) > 0;
                self.hit_if(same, "removal: not by a routed write");
            }
            (0, true) => match word {
                WORD_ERRORS => self.removal(before, access, memory),
                WORD_DECODE => self.clear(before, access),
                WORD_STATUS => self.flag(before, access),
                _ => {}
            },
            (0, false) if answer.sent == 0 => self.shown(before, word),
            (number @ (5 | 8 | 9), true) if word == WORD_ERRORS && queued(before) > 0 => {
                // On the primary bus, but for bits past the space.
                let most = (1 << before.settings().bus_bits) - 1;
                let bus = (access.offset >> 20) as u32 & most;
                let here = bus == before.registers()[0] & 0xFF;
                self.hit_if(here, format!("removal: refused with {number}"));
            }
            _ => {}
        }
    }

    fn removal(&mut self, before: &Bridge, access: &Access, memory: &mut Memory) {
        let nothing = access.strobes.is_multiple_of(16);
        if queued(before) == 0 {
            self.hit("removal: empty queue");
            return self.hit_if(nothing, "removal: strobes 0, empty queue");
        }
        let left = queued(before) - 1;
        self.hit(format!("removal: leaves {left}"));
        memory.removed += 1;
        let late = memory.removed >= QUEUE_DEPTH && left > 0;
        self.hit_if(late, "queue: an entry past the 32nd becomes the oldest");
        self.hit_if(access.strobes == 0, "removal: strobes 0");
        let more = nothing && access.strobes != 0;
        self.hit_if(more, "removal: strobes 16, which is 0 mod 16");
        let other = !nothing && chosen(access.strobes) & VALID == 0;
        self.hit_if(other, "removal: byte with the valid bit not chosen");
        self.hit_if(access.data == 0, "removal: data zero");
        self.hit_if(!before.link_is_up(), "removal: link down");
        let device = access.offset >> 12 & 0xFF != 0;
        self.hit_if(device, "removal: by another device");
        self.hit_if(before.errors().overflowed(), "removal: flag stays");
    }

    fn clear(&mut self, before: &Bridge, access: &Access) {
        let meant = access.data & decode(before);
        let ones = meant & chosen(access.strobes);
        let flag = before.errors().overflowed();
        let held = queued(before);
        if meant & ERROR_BITS != 0 && ones & ERROR_BITS == 0 && held == 0 {
            self.hit("clear: queue empty, byte not chosen");
        }
        if ones & ERROR_BITS == 0 {
            return;
        }
        if held > 0 {
            self.hit("clear: blocked by the queue");
            self.hit_if(held == 1, "clear: blocked by one entry");
            self.hit_if(held == QUEUE_DEPTH, "clear: blocked by a full queue");
            self.hit_if(flag, "clear: blocked, flag set");
            let others = ones & !ERROR_BITS != 0;
            self.hit_if(others, "clear: blocked, but not the other ones");
        } else {
            self.hit("clear: queue empty");
            self.hit_if(flag, "clear: queue empty, flag set");
            let rest = decode(before) & !ones & ERROR_BITS != 0;
            self.hit_if(rest, "clear: some of the bits");
        }
    }

    fn flag(&mut self, before: &Bridge, access: &Access) {
        let ones = access.data & chosen(access.strobes);
        let held = queued(before);
        let other = held > 0 && ones & NOT_EMPTY != 0;
        self.hit_if(other, "flag: a one to bit 16, queue not empty");
        if !before.errors().overflowed() {
            return;
        }
        let point = match held {
            _ if access.data & OVERFLOW == 0 => "flag: written with zero",
            _ if ones & OVERFLOW == 0 => "flag: byte not chosen",
            0 => "flag: cleared, queue empty",
            QUEUE_DEPTH => "flag: cleared, queue full",
            _ => "flag: cleared, queue in between",
        };
        self.hit(point);
    }

    fn shown(&mut self, before: &Bridge, word: u32) {
        let [.., status, oldest] = before.registers();
        match word {
            WORD_STATUS => self.hit(format!("148: reads {status:08X}")),
            WORD_ERRORS if oldest == 0 => self.hit("154: reads 0"),
            WORD_ERRORS => self.hit(format!("154: reads type {}", oldest >> TYPE_SHIFT & 3)),
            _ => {}
        }
    }

    /// A link that goes down or up.
    pub(super) fn queue_over_link(&mut self, before: &Bridge, up: bool, memory: &mut Memory) {
        let held = queued(before);
        let flag = before.errors().overflowed();
        if before.link_is_up() && !up {
            self.hit_if(held > 0, "drop: keeps the queue");
            self.hit_if(held == QUEUE_DEPTH, "drop: keeps a full queue");
            self.hit_if(flag, "drop: keeps the flag");
            let empty = flag && held == 0;
            self.hit_if(empty, "drop: keeps the flag of an empty queue");
            memory.kept = held > 0;
        }
    }

    /// After any event: the line through the bits of the queue alone.
    pub(super) fn error_line(&mut self, after: &Bridge) {
        let [_, _, decode, mask, ..] = after.registers();
        let shared = decode & mask;
        if shared == 0 || shared & !ERROR_BITS != 0 {
            return;
        }
        if !after.line() {
            return self.hit("line: bits 9 to 11 alone, kept low by 134");
        }
        if shared.is_power_of_two() {
            let bit = shared.trailing_zeros();
            self.hit(format!("line: high through bit {bit} alone"));
        }
    }
}
