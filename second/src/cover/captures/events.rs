//! What the events of captures say and do.

use super::CaptureCoverage;
use crate::answer::Answer;
use crate::bridge::{Bridge, CONFIG_SLOT, READ_SLOTS};
use crate::burst::Burst;
use crate::capture::{record, Bench, Event, BODY_LIMIT, COMPLETION_LEAST, DATA_LIMIT};

const STATUSES: [&str; 8] = ["success", "UR", "CRS", "3", "CA", "5", "6", "7"];

impl CaptureCoverage {
    pub(super) fn event(
        &mut self,
        before: &Bridge,
        event: &Event,
        answer: &Answer,
        bench: &Bench,
        bytes: &[u8],
    ) {
        let after = &bench.bridge;
        match event {
            Event::Read(burst) => {
                self.burst("read", burst, answer);
                let rests = answer.number == 7 && !before.resting().is_empty();
                self.hit_if(rests, "read 7 while a tag rests");
            }
            Event::Write { burst, data } => {
                self.burst("write", burst, answer);
                self.write_data(data.len(), answer);
            }
            Event::ConfigRead { .. } => {
                self.config("config read", answer, &bench.area);
                let ignored = record(event).is_some_and(|plain| plain != bytes);
                self.hit_if(ignored, "config read with ignored bits set");
                self.hit_if(!ignored, "config read without ignored bits");
            }
            Event::ConfigWrite { .. } => self.config("config write", answer, &bench.area),
            Event::Completion(bytes) => self.completion(before, bytes, answer, after),
            Event::Link { up } => {
                let how = match before.link_is_up() == *up {
                    true => "said again",
                    false => "changed",
                };
                self.hit(format!("{} {how}", event.name()));
                let frees = !before.resting().is_empty() && !up;
                self.hit_if(frees, "link down frees a resting tag");
                let ends = !before.pieces().is_empty() && !up;
                self.hit_if(ends, "link down ends an open request");
            }
            Event::Tick => {
                let closed = before.pieces().len() > after.pieces().len();
                self.hit_if(closed, "tick closes a request");
                let open = !before.pieces().is_empty();
                self.hit_if(!closed && open, "tick leaves a request open");
                self.hit_if(!open, "tick with nothing open");
                let wakes = before.config_slot().is_open() && after.config_slot().is_finished();
                self.hit_if(wakes, "tick closes a configuration access");
            }
            Event::Take { slot } => self.hit(format!("take of slot {slot} {}", answer.number)),
            Event::Message(_) => unreachable!("no file has one"),
        }
    }

    fn burst(&mut self, name: &str, burst: &Burst, answer: &Answer) {
        self.hit(format!("{name}, size code {}", burst.size));
        self.hit(format!("{name}, type {}", burst.kind));
        self.hit_if(burst.beats == 1, format!("{name}, 1 beat"));
        self.hit_if(burst.beats == 256, format!("{name}, 256 beats"));
        let crosses = answer.number == 3 && burst.kind == 1 && burst.size <= 5;
        self.hit_if(crosses, format!("{name} across a page"));
        let whole = answer.number == 0 && burst.length() == Some(4096);
        self.hit_if(whole, format!("{name} of a whole page"));
        let high = burst.start.0 >> 32 != 0;
        self.hit_if(high, format!("{name}, address above 2^32"));
        let low = burst.start.0 as u32 >> 16 == 0x1234;
        let outside = answer.number == 2 && high && low;
        self.hit_if(outside, format!("{name} outside by its high half alone"));
    }

    fn write_data(&mut self, length: usize, answer: &Answer) {
        self.hit_if(length == 0, "write with no data");
        self.hit_if(length == DATA_LIMIT, "write with 4,102 bytes");
        let more = (4097..DATA_LIMIT).contains(&length);
        self.hit_if(more, "write with 4,097 to 4,101 bytes");
        let odd = answer.number == 0 && !length.is_multiple_of(4);
        self.hit_if(odd, "write of an odd length accepted");
    }

    fn config(&mut self, name: &str, answer: &Answer, area: &[u8]) {
        // The request's first byte has the type in bit 0, byte 9 the device.
        let how = match (answer.number, answer.sent) {
            (0, 0) => "local",
            (0, _) if area[0] & 1 == 0 => "of type 0",
            (0, _) if area[9] >> 3 == 0 => "of type 1",
            (0, _) => "of type 1 to a device above 0",
            _ => "refused",
        };
        self.hit(format!("{name} {how}"));
    }

    fn completion(&mut self, before: &Bridge, bytes: &[u8], answer: &Answer, after: &Bridge) {
        let number = answer.number;
        let length = bytes.len();
        self.hit_if(length == COMPLETION_LEAST, "completion of 12 bytes");
        self.hit_if(length == BODY_LIMIT, "completion of 4,112 bytes");
        self.hit_if(!length.is_multiple_of(4), "completion of no whole words");
        let status = STATUSES[usize::from(bytes[6] >> 5)];
        let poisoned = bytes[2] & 0x40 != 0;
        if number == 0 {
            match poisoned {
                true => self.hit("poisoned completion accepted"),
                false => self.hit(format!("completion with status {status} accepted")),
            }
            let partial = before.pieces().len() == after.pieces().len();
            self.hit_if(partial, "completion that leaves bytes missing");
        }
        let tag = u32::from(bytes[10]);
        let late = number == 13 && before.resting().contains(&tag);
        self.hit_if(late, "late completion for a resting tag");
    }
}

pub(super) fn required() -> Vec<String> {
    let mut list = Vec::new();
    for name in ["read", "write"] {
        list.extend((0..8).map(|z| format!("{name}, size code {z}")));
        list.extend((0..4).map(|kind| format!("{name}, type {kind}")));
        for point in [", 1 beat", ", 256 beats", ", address above 2^32"] {
            list.push(format!("{name}{point}"));
        }
        list.push(format!("{name} outside by its high half alone"));
        list.push(format!("{name} across a page"));
        list.push(format!("{name} of a whole page"));
    }
    for name in ["config read", "config write"] {
        list.extend(ROUTES.map(|how| format!("{name} {how}")));
    }
    for name in ["link up", "link down"] {
        list.extend(["changed", "said again"].map(|how| format!("{name} {how}")));
    }
    for slot in 0..16 {
        list.push(format!("take of slot {slot} 14"));
        if slot < READ_SLOTS || slot == CONFIG_SLOT {
            list.push(format!("take of slot {slot} 0"));
        }
    }
    list.extend(STATUSES.map(|status| format!("completion with status {status} accepted")));
    list.extend(OTHERS.map(str::to_string));
    list
}

const ROUTES: [&str; 5] = [
    "local",
    "of type 0",
    "of type 1",
    "of type 1 to a device above 0",
    "refused",
];

const OTHERS: [&str; 19] = [
    "read 7 while a tag rests",
    "write with no data",
    "write with 4,102 bytes",
    "write with 4,097 to 4,101 bytes",
    "write of an odd length accepted",
    "config read with ignored bits set",
    "config read without ignored bits",
    "completion of 12 bytes",
    "completion of 4,112 bytes",
    "completion of no whole words",
    "poisoned completion accepted",
    "completion that leaves bytes missing",
    "late completion for a resting tag",
    "link down frees a resting tag",
    "link down ends an open request",
    "tick closes a request",
    "tick closes a configuration access",
    "tick leaves a request open",
    "tick with nothing open",
];
