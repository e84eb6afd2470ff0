//! Watches which life of the link answers belong to (02, request A2). Lives are
//! counted from the events, apart from the bridge's own counter.

use super::Coverage;
use crate::answer::{Answer, Response};
use crate::bridge::{Bridge, Cause, CONFIG_SLOT, READ_SLOTS};
use crate::traffic::{Event, Header, Outcome, VERSION_ARRAYS, VERSION_SESSION};
use std::collections::{BTreeMap, BTreeSet};

const PLAIN: &str = "
first session: 0
first session: 1 to 9
first session: the last value
first session: up to 5 before it
first session: another
session: the counter starts again at zero
session: five lives
session: 0 before the first life
session: not 0 before the first life
session: of the present life
session: of the life before
session: of two lives before
session: of three lives before or more
session: of the life that ended, link down
session: of an earlier life, link down
session: 0 after the counter's end
session: 1 after the counter's end
session: 4,294,967,295
session: kept over the counter's end
session: from a first value, new refused
session: from a first value, new accepted
session: another number than the last in the same slot
session: two lives kept at once
session: three lives kept at once
session: kept over a repeated up
session: open over a repeated up
session: kept over a repeated down
session: kept over a refused up
session: kept over a refused down
session: refused up of a down link
session: refused up of an up link
session: refused down of an up link
later life: memory OKAY
later life: memory SLVERR
later life: memory DECERR
later life: memory, UR
later life: memory, CA
later life: memory, poison
later life: memory, timeout
later life: memory, ended by the drop
later life: routed OKAY
later life: routed SLVERR
later life: routed all ones
later life: routed, ended by the drop
later life: local read
later life: local write
local while down: before the first life, taken up
local while down: before the first life, taken down
local while down: after a life, taken up
local while down: after a life, taken down
refused release: 8 of a finished answer
refused release: 8 of an earlier life's
refused release: 14 of an open access
refused release: 14 of a slot that had a number
refused release: 14 of no slot
";

/// The calls whose answers have no session number although the counter has one.
const SILENT: [&str; 9] = [
    "read",
    "write",
    "config",
    "completion",
    "tick",
    "link",
    "message",
    "release 8",
    "release 14",
];

/// The points of this file.
pub fn required() -> Vec<String> {
    let mut list: Vec<String> = PLAIN.lines().skip(1).map(String::from).collect();
    list.extend(SILENT.map(|call| format!("no session, counter not 0: {call}")));
    for version in VERSION_ARRAYS..=VERSION_SESSION {
        for number in [0, 1] {
            list.push(format!("version {version}: new {number}"));
        }
    }
    list
}

/// An access whose answer is not yet taken.
struct Kept {
    /// How often the link had gone up.
    life: u32,
    down: bool,
    /// A local read or write.
    local: Option<&'static str>,
    /// The drop has finished it.
    dropped: bool,
    repeated_up: bool,
    repeated_down: bool,
    refused_up: bool,
    refused_down: bool,
}

/// What is known of the lives of one file.
#[derive(Default)]
pub(super) struct Lives {
    life: u32,
    first: u32,
    /// What `new` gave, where the header has a first value.
    from_header: Option<u32>,
    kept: BTreeMap<u32, Kept>,
    /// The last number taken from each slot.
    last: BTreeMap<u32, u32>,
}

impl Lives {
    pub(super) fn new(header: &Header, number: u32) -> Lives {
        Lives {
            first: header.first_session().unwrap_or(0),
            from_header: header.first_session().map(|_| number),
            ..Lives::default()
        }
    }

    fn accept(&mut self, slot: u32, before: &Bridge, local: Option<&'static str>) {
        let kept = Kept {
            life: self.life,
            down: !before.link_is_up(),
            local,
            dropped: false,
            repeated_up: false,
            repeated_down: false,
            refused_up: false,
            refused_down: false,
        };
        self.kept.insert(slot, kept);
    }

    fn mark(&mut self, change: impl Fn(&mut Kept)) {
        self.kept.values_mut().for_each(change);
    }
}

/// Whether the slot holds an access that is not finished.
fn open(bridge: &Bridge, slot: u32) -> bool {
    match slot {
        CONFIG_SLOT => bridge.config_slot().is_open(),
        _ => bridge
            .reads()
            .iter()
            .any(|r| r.slot == slot && r.finished.is_none()),
    }
}

impl Coverage {
    pub(super) fn first_session(&mut self, header: &Header, number: u32) {
        self.hit(format!("version {}: new {number}", header.version()));
        let Some(first) = header.first_session() else {
            return;
        };
        let name = match u32::MAX - first {
            _ if first == 0 => "0",
            _ if first < 10 => "1 to 9",
            0 => "the last value",
            1..=5 => "up to 5 before it",
            _ => "another",
        };
        self.hit(format!("first session: {name}"));
    }

    pub(super) fn session(
        &mut self,
        before: &Bridge,
        event: &Event,
        outcome: &Outcome,
        lives: &mut Lives,
    ) {
        let Outcome::Call(answer) = outcome else {
            return;
        };
        self.silent(before, event, answer);
        match (event, answer.number) {
            (Event::Read { .. }, 0) => lives.accept(answer.slot, before, None),
            (Event::Config { access, .. }, 0) => {
                let way = if access.write { "write" } else { "read" };
                let local = (answer.sent == 0).then_some(way);
                lives.accept(answer.slot, before, local);
            }
            (Event::Link { up, .. }, 0) => self.link_event(before, *up, lives),
            (Event::Link { up, .. }, _) => self.refused_link(before, *up, lives),
            (Event::Release { slot, .. }, 0) => self.taken(before, *slot, answer, lives),
            (Event::Release { slot, .. }, number) => {
                self.not_taken(before, *slot, number, lives);
            }
            _ => {}
        }
        let held: BTreeSet<u32> = lives.kept.values().map(|k| k.life).collect();
        self.hit_if(held.len() > 1, "session: two lives kept at once");
        self.hit_if(held.len() > 2, "session: three lives kept at once");
    }

    /// Answers that must not show the counter, though it has something to show.
    fn silent(&mut self, before: &Bridge, event: &Event, answer: &Answer) {
        if before.session() == 0 {
            return;
        }
        let point = match (event, answer.number) {
            (Event::Release { .. }, 0) => return,
            (Event::Release { .. }, number) => format!("release {number}"),
            (_, 0) => event.name().to_string(),
            _ => return,
        };
        self.hit(format!("no session, counter not 0: {point}"));
    }

    fn link_event(&mut self, before: &Bridge, up: bool, lives: &mut Lives) {
        match (before.link_is_up(), up) {
            (false, true) => {
                lives.life += 1;
                self.hit_if(lives.life == 5, "session: five lives");
                let last = before.session() == u32::MAX;
                self.hit_if(last, "session: the counter starts again at zero");
            }
            (true, true) => {
                let waits = lives.kept.keys().any(|slot| open(before, *slot));
                self.hit_if(waits, "session: open over a repeated up");
                lives.mark(|k| k.repeated_up = true);
            }
            (false, false) => lives.mark(|k| k.repeated_down = true),
            (true, false) => {
                for (slot, kept) in &mut lives.kept {
                    kept.dropped |= open(before, *slot);
                }
            }
        }
    }

    fn refused_link(&mut self, before: &Bridge, up: bool, lives: &mut Lives) {
        match (before.link_is_up(), up) {
            (false, true) => self.hit("session: refused up of a down link"),
            (true, true) => self.hit("session: refused up of an up link"),
            (true, false) => self.hit("session: refused down of an up link"),
            (false, false) => {}
        }
        match up {
            true => lives.mark(|k| k.refused_up = true),
            false => lives.mark(|k| k.refused_down = true),
        }
    }

    fn taken(&mut self, before: &Bridge, slot: u32, answer: &Answer, lives: &mut Lives) {
        let kept = lives.kept.remove(&slot).expect("an accepted access");
        assert_eq!(answer.session, lives.first.wrapping_add(kept.life));
        self.numbers_taken(before, answer.session, &kept, lives);
        if lives.life > kept.life {
            self.later_life(before, slot, answer, &kept);
        }
        self.hit_if(kept.repeated_up, "session: kept over a repeated up");
        self.hit_if(kept.repeated_down, "session: kept over a repeated down");
        self.hit_if(kept.refused_up, "session: kept over a refused up");
        self.hit_if(kept.refused_down, "session: kept over a refused down");
        if kept.down {
            let when = if kept.life == 0 {
                "before the first life"
            } else {
                "after a life"
            };
            let way = if before.link_is_up() { "up" } else { "down" };
            self.hit(format!("local while down: {when}, taken {way}"));
        }
        let last = lives.last.insert(slot, answer.session);
        let other = last.is_some_and(|l| l != answer.session);
        self.hit_if(
            other,
            "session: another number than the last in the same slot",
        );
    }

    /// The number itself, and how old it is.
    fn numbers_taken(&mut self, before: &Bridge, session: u32, kept: &Kept, lives: &Lives) {
        let up = before.link_is_up();
        let age = match lives.life - kept.life {
            _ if kept.life == 0 && session == 0 => "0 before the first life",
            _ if kept.life == 0 => "not 0 before the first life",
            0 if up => "of the present life",
            0 => "of the life that ended, link down",
            _ if !up => "of an earlier life, link down",
            1 => "of the life before",
            2 => "of two lives before",
            _ => "of three lives before or more",
        };
        self.hit(format!("session: {age}"));
        let around = session < lives.first;
        let zero = around && session == 0;
        self.hit_if(zero, "session: 0 after the counter's end");
        let one = around && session == 1;
        self.hit_if(one, "session: 1 after the counter's end");
        self.hit_if(session == u32::MAX, "session: 4,294,967,295");
        let over = session > before.session();
        self.hit_if(over, "session: kept over the counter's end");
        match lives.from_header {
            Some(0) if lives.first != 0 => self.hit("session: from a first value, new accepted"),
            Some(_) if lives.first != 0 => self.hit("session: from a first value, new refused"),
            _ => {}
        }
    }

    /// What an answer that is taken in a later life says besides.
    fn later_life(&mut self, before: &Bridge, slot: u32, answer: &Answer, kept: &Kept) {
        if let Some(way) = kept.local {
            return self.hit(format!("later life: local {way}"));
        }
        let kind = if slot < READ_SLOTS {
            "memory"
        } else {
            "routed"
        };
        let response = match answer.response {
            Response::Okay if answer.data == u32::MAX => "all ones",
            Response::Okay => "OKAY",
            Response::Slverr => "SLVERR",
            _ => "DECERR",
        };
        self.hit(format!("later life: {kind} {response}"));
        if kept.dropped {
            return self.hit(format!("later life: {kind}, ended by the drop"));
        }
        let read = before.reads().iter().find(|r| r.slot == slot);
        for (_, cause) in read.iter().flat_map(|r| &r.failures) {
            let cause = match cause {
                Cause::Unsupported => "UR",
                Cause::Abort => "CA",
                Cause::Poison => "poison",
                Cause::Timeout => "timeout",
            };
            self.hit(format!("later life: memory, {cause}"));
        }
    }

    fn not_taken(&mut self, before: &Bridge, slot: u32, number: u32, lives: &Lives) {
        let kept = lives.kept.get(&slot);
        if number == 8 {
            let kept = kept.filter(|_| !open(before, slot) && before.session() != 0);
            self.hit_if(kept.is_some(), "refused release: 8 of a finished answer");
            let earlier = kept.is_some_and(|k| k.life < lives.life);
            return self.hit_if(earlier, "refused release: 8 of an earlier life's");
        }
        let waits = kept.is_some() && before.session() != 0;
        self.hit_if(waits, "refused release: 14 of an open access");
        let had = lives.last.get(&slot).is_some_and(|l| *l != 0);
        let had = had && kept.is_none();
        self.hit_if(had, "refused release: 14 of a slot that had a number");
        self.hit_if(slot > CONFIG_SLOT, "refused release: 14 of no slot");
    }
}
