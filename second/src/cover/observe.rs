//! Watches one event: the bridge before, the answer, the machine after.

use super::points::{local_words, BITS};
use super::{classify, Coverage, Memory};
use crate::answer::{Answer, Response};
use crate::bridge::{Access, Bridge, Cause, Owner, Piece, CONFIG_SLOT};
use crate::burst::{cut, Burst};
use crate::header::{read_completion, Completion};
use crate::settings::{PcieAddress, Settings};
use crate::traffic::{Event, Header, Machine, Outcome};

fn owner_name(owner: Owner) -> &'static str {
    match owner {
        Owner::Read(_) => "memory",
        Owner::ConfigRead => "configuration read",
        Owner::ConfigWrite => "configuration write",
    }
}

impl Coverage {
    pub(super) fn settings(&mut self, settings: &Settings) {
        let broken = classify::broken_rules(settings);
        self.hit_if(broken.is_empty(), format!("windows: {}", settings.count));
        for rule in broken {
            self.hit(format!("settings: {rule}"));
        }
    }

    /// Each way of making a bridge, accepted and refused; lists of each length.
    pub(super) fn making(&mut self, header: &Header, number: u32) {
        let list = header.list();
        let way = list.as_ref().map_or("arrays", |_| "list");
        self.hit(format!("made from {way}: {number}"));
        let broken = classify::broken_rules(&header.settings);
        let (few, many) = (["count below 1"], ["count above 6"]);
        let only = broken == few || broken == many;
        let length = list.map_or(header.settings.count as usize, |l| l.len());
        if number == 0 || only {
            self.hit(format!("made from {way}: {} records", length.min(7)));
        }
    }

    pub(super) fn observe(
        &mut self,
        before: &Bridge,
        event: &Event,
        outcome: &Outcome,
        machine: &Machine,
        memory: &mut Memory,
    ) {
        let after = &machine.bridge;
        match (event, outcome) {
            (Event::Read { burst, .. }, Outcome::Call(answer)) if answer.number == 0 => {
                self.read(before, burst, answer, machine);
            }
            (Event::Write { burst, .. }, Outcome::Call(answer)) if answer.number == 0 => {
                self.write(before, burst, machine);
            }
            (Event::Config { access, .. }, Outcome::Call(answer)) => {
                self.config(before, access, answer, machine);
                self.error_words(before, access, answer, memory);
            }
            (Event::Completion { bytes, .. }, Outcome::Call(answer)) => {
                self.completion(before, bytes, answer, memory);
            }
            (Event::Tick { repeat, .. }, Outcome::Call(answer)) if answer.number == 0 => {
                self.tick(before, *repeat, after, memory);
            }
            (Event::Link { up, .. }, Outcome::Call(answer)) if answer.number == 0 => {
                self.link(before, *up);
                self.queue_over_link(before, *up, memory);
            }
            (Event::Message { bytes }, Outcome::Call(answer)) => {
                self.message(before, bytes, answer.number, after, memory);
            }
            (Event::Look { slot, .. }, Outcome::Look { number: 0, part }) => {
                self.look(*slot, part.len());
            }
            (Event::Release { slot, .. }, Outcome::Call(answer)) if answer.number == 0 => {
                self.release(before, *slot, answer);
            }
            _ => self.header_call(event, outcome),
        }
        self.session(before, event, outcome, &mut memory.lives);
        self.devices(before, event, outcome, machine, memory);
        self.changes(before, event, after);
        self.error_line(after);
        self.tags(before, after, memory);
    }

    fn burst(&mut self, before: &Bridge, burst: &Burst) -> (u64, u32) {
        let length = burst.length().expect("an accepted burst");
        let settings = before.settings();
        let target = settings.translate(burst.start).expect("a window").0;
        let window = settings.used().iter().find(|w| w.holds(burst.start));
        let window = window.expect("a window");
        self.hit(format!("burst: size code {}", burst.size));
        self.hit_if(window.base == 0, "window: base 0");
        let end = |from: u64| from.wrapping_add(window.size) == 0;
        self.hit_if(end(window.base), "window: ends at 2^64");
        self.hit_if(window.target == 0, "window: target 0");
        self.hit_if(end(window.target), "window: target ends at 2^64");
        self.hit_if(window.size == 1 << 12, "window: 2^12 bytes");
        self.hit_if(window.size == 1 << 40, "window: 2^40 bytes");
        self.hit_if(burst.start.0 == window.base, "window: first byte");
        let last = burst.start.0 - window.base + u64::from(length) == window.size;
        self.hit_if(last, "window: last byte");
        (target, length)
    }

    fn read(&mut self, before: &Bridge, burst: &Burst, answer: &Answer, machine: &Machine) {
        let (target, length) = self.burst(before, burst);
        let limit = before.settings().read_limit;
        let count = cut(PcieAddress(target), length, limit).len();
        self.hit_if(count > 1, format!("read: several pieces, limit {limit}"));
        self.hit_if(count == 32, "read: all 32 tags");
        self.hit_if(burst.beats == 256, "read: 256 beats");
        self.hit_if(burst.beats == 1, "read: one beat");
        let whole = length == 4096 && limit == 4096;
        self.hit_if(whole, "read: limit 4,096, whole page");
        self.hit(format!("read: start mod 4 is {}", burst.start.0 % 4));
        self.header_words("read", machine);
        let first = before.free_tags()[0];
        self.hit_if(first != 0, "tags: lowest free is not 0");
        assert_eq!(u32::from(machine.area[6]), first);
        assert!(answer.sent >= 12);
    }

    fn write(&mut self, before: &Bridge, burst: &Burst, machine: &Machine) {
        let (target, length) = self.burst(before, burst);
        let limit = before.settings().write_limit;
        let count = cut(PcieAddress(target), length, limit).len();
        self.hit_if(count > 1, format!("write: several pieces, limit {limit}"));
        self.hit_if(length == 4096, "write: whole page");
        self.hit(format!("write: start mod 4 is {}", burst.start.0 % 4));
        self.header_words("write", machine);
    }

    fn header_words(&mut self, kind: &str, machine: &Machine) {
        let words = 3 + (machine.area[0] >> 5 & 1);
        self.hit(format!("{kind}: {words}-word header"));
    }

    fn config(&mut self, before: &Bridge, access: &Access, answer: &Answer, machine: &Machine) {
        let way = if access.write { "write" } else { "read" };
        let bits = before.settings().bus_bits;
        let point = "config: offset at 2^(20+n) or over";
        self.hit_if(answer.number == 9, point);
        if answer.number != 0 {
            return;
        }
        if answer.sent > 0 {
            let kind = machine.area[0] & 1;
            self.hit(format!("config: type {kind} {way}"));
            self.hit(format!("config: routed, {bits} bus bits"));
            let strobes = access.strobes % 16;
            self.hit_if(access.write, format!("config: strobes {strobes}"));
            return;
        }
        let word = access.offset as u32 & 0xFFC;
        let name = match local_words().contains(&word) {
            true => format!("{word:03X}"),
            false => "others".to_string(),
        };
        self.hit(format!("config: local {way} of {name}"));
        let down = !before.link_is_up();
        self.hit_if(down, "config: local with the link down");
        let device = access.offset >> 15 & 31 != 0;
        self.hit_if(device, "config: local, device not 0");
    }

    fn completion(&mut self, before: &Bridge, bytes: &[u8], answer: &Answer, memory: &mut Memory) {
        match answer.number {
            12 => self.hit(format!("malformed: {}", classify::malformed(bytes))),
            13 => {
                let value = read_completion(&bytes[..12]).expect("well formed");
                for reason in classify::unexpected(before, &value) {
                    self.hit(format!("unexpected: {reason}"));
                    if reason == "count" {
                        memory.ahead.insert(value.tag);
                    }
                }
            }
            0 => {
                let value = read_completion(&bytes[..12]).expect("well formed");
                self.accepted_completion(before, &value);
            }
            _ => {}
        }
    }

    fn accepted_completion(&mut self, before: &Bridge, value: &Completion) {
        let open = before.pieces().iter().find(|p| p.tag == value.tag);
        let piece = open.expect("an open tag");
        let owner = owner_name(piece.owner);
        self.hit(format!("status: {} for {owner}", value.status));
        self.hit_if(value.poisoned, format!("poison: {owner}"));
        let failing = value.status != 0;
        if failing && poisoned_before(before, piece) {
            self.hit("poison: then failing status");
        }
    }

    fn tick(&mut self, before: &Bridge, repeat: u32, after: &Bridge, memory: &mut Memory) {
        let wrapped = after.counter() < before.counter();
        self.hit_if(wrapped, "ticks: counter starts again at zero");
        let limit = before.settings().time_limit;
        let open = |p: &Piece| after.counter().wrapping_sub(p.born) == limit - 1;
        self.hit_if(after.pieces().iter().any(open), "ticks: T - 1 open");
        let gone = |p: &&Piece| after.pieces().iter().all(|q| q.tag != p.tag);
        let closed: Vec<&Piece> = before.pieces().iter().filter(gone).collect();
        self.hit_if(
            closed.len() > 1 && repeat == 1,
            "timeout: several pieces at one tick",
        );
        for piece in closed {
            self.hit(format!("timeout: {}", owner_name(piece.owner)));
            let around = piece.born.checked_add(limit).is_none();
            self.hit_if(around, "timeout: around the counter's end");
            self.hit_if(poisoned_before(before, piece), "poison: then timeout");
            let lost = memory.ahead.contains(&piece.tag);
            self.hit_if(lost, "timeout: after a lost part");
        }
    }

    fn link(&mut self, before: &Bridge, up: bool) {
        match (before.link_is_up(), up) {
            (false, true) => self.hit("link: up"),
            (true, true) => self.hit("link: up again"),
            (false, false) => self.hit("link: down again"),
            (true, false) => self.drop_link(before),
        }
    }

    fn drop_link(&mut self, before: &Bridge) {
        let open_reads = before.reads().iter().filter(|r| r.finished.is_none());
        let config = before.config_slot();
        let all = open_reads.clone().count() == 8 && config.is_open();
        self.hit_if(all, "link: drop with everything open");
        let none = before.pieces().is_empty();
        self.hit_if(none, "link: drop with nothing open");
        let taken = before.free_tags().is_empty();
        self.hit_if(taken, "link: drop with all 32 tags taken");
        let rests = !before.resting().is_empty();
        self.hit_if(rests, "link: drop with resting tags");
        let kept = before.reads().iter().any(|r| r.finished.is_some());
        self.hit_if(kept, "link: drop keeps a finished answer");
        let kept = config.is_finished();
        self.hit_if(kept, "link: drop keeps a finished configuration answer");
        let failed = open_reads.clone().any(|r| !r.failures.is_empty());
        self.hit_if(failed, "link: drop with a failed piece");
    }

    fn look(&mut self, slot: u32, length: usize) {
        let config = slot == CONFIG_SLOT;
        self.hit_if(config, "look: configuration slot");
        self.hit_if(!config && length <= 16, "look: up to 16 bytes");
        self.hit_if(length > 16, "look: more than 16 bytes");
    }

    fn release(&mut self, before: &Bridge, slot: u32, answer: &Answer) {
        let response = match answer.response {
            Response::Okay if slot == CONFIG_SLOT && answer.data == u32::MAX => "all ones",
            Response::Okay => "OKAY",
            Response::Slverr => "SLVERR",
            _ => "DECERR",
        };
        self.hit_if(!before.link_is_up(), "release: after a drop");
        if slot == CONFIG_SLOT {
            return self.hit(format!("release: configuration {response}"));
        }
        self.hit(format!("release: memory {response}"));
        let read = before.reads().iter().find(|r| r.slot == slot);
        let read = read.expect("a finished read");
        let limit = before.settings().read_limit;
        let several = read.length > limit && response == "OKAY";
        self.hit_if(several, format!("read: several pieces OKAY, limit {limit}"));
        let failures = &read.failures;
        self.hit_if(failures.len() > 1, "read: two pieces failed");
        let ways = failures.iter().any(|f| f.1 != failures[0].1);
        self.hit_if(ways, "read: failed in two ways");
    }

    fn header_call(&mut self, event: &Event, outcome: &Outcome) {
        if outcome.number() != 12 {
            return;
        }
        let (call, why) = match event {
            Event::RequestWriter { value, .. } => {
                ("request writer", classify::request_value(value))
            }
            Event::RequestReader { bytes } => ("request reader", classify::request_bytes(bytes)),
            Event::CompletionWriter { value, .. } => {
                ("completion writer", classify::completion_value(value))
            }
            Event::CompletionReader { bytes } => {
                ("completion reader", classify::completion_bytes(bytes))
            }
            _ => return,
        };
        self.hit(format!("{call}: {why}"));
    }

    /// Decode bits and the line.
    fn changes(&mut self, before: &Bridge, event: &Event, after: &Bridge) {
        let (old, new) = (before.registers()[2], after.registers()[2]);
        for bit in BITS {
            let (was, is) = (old >> bit & 1, new >> bit & 1);
            self.hit_if(was < is, format!("decode: bit {bit} set"));
            let write = matches!(event, Event::Config { .. });
            let cleared = was > is && write;
            self.hit_if(cleared, format!("decode: bit {bit} cleared by a write"));
        }
        self.hit_if(after.line(), "line: high");
        let shared = after.registers()[2] & after.registers()[3] != 0;
        self.hit_if(shared && !after.line(), "line: kept low by 134");
    }

    /// Which tags open and close.
    fn tags(&mut self, before: &Bridge, after: &Bridge, memory: &mut Memory) {
        let was_open = |tag: u32| before.pieces().iter().any(|p| p.tag == tag);
        for piece in after.pieces().iter().filter(|p| !was_open(p.tag)) {
            self.hit_if(!memory.used.insert(piece.tag), "tags: reuse");
            let rested = memory.rested.contains(&piece.tag);
            self.hit_if(rested, "tags: reuse after resting and a drop");
            memory.ahead.remove(&piece.tag);
        }
        memory.rested.extend(after.resting());
    }
}

/// The piece's first failure was poison.
fn poisoned_before(bridge: &Bridge, piece: &Piece) -> bool {
    let Owner::Read(slot) = piece.owner else {
        return false;
    };
    let read = bridge.reads().iter().find(|r| r.slot == slot);
    read.is_some_and(|r| r.failures.contains(&(piece.rank, Cause::Poison)))
}
