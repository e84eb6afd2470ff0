//! Watches devices above 0 and the requests that name them (02, request A4). How a
//! bus lies is worked out from the bus numbers, apart from the bridge's answer.

use super::{Coverage, Memory};
use crate::answer::{Answer, Response};
use crate::bridge::{Access, Bridge, CONFIG_SLOT};
use crate::header::read_completion;
use crate::traffic::{Event, Machine, Outcome};

const PLAIN: &str = "
device not 0: secondary bus, area too short gets 8
device not 0: secondary bus, slot not free gets 5
device not 0: secondary bus, no tag free gets 11
device not 0: bus inside, no tag free gets 7
device not 0: secondary is subordinate gets 11
device not 0: secondary below subordinate gets 11
type 1, device not 0: the bus after secondary
type 1, device not 0: subordinate bus
type 1, device not 0: between them
type 1, device not 0: function 0
type 1, device not 0: function 7
";

/// What a device above 0 gets by its bus, with the link up and with it down.
const GETS: [(&str, u32, u32); 8] = [
    ("bus past the space", 9, 9),
    ("primary bus", 0, 0),
    ("primary bus inside the range", 0, 0),
    ("primary bus, which is secondary", 0, 0),
    (SECONDARY, 11, 11),
    ("secondary bus above subordinate", 10, 10),
    (INSIDE, 0, 4),
    ("bus outside", 10, 10),
];
const SECONDARY: &str = "secondary bus";
const INSIDE: &str = "bus inside";

/// How a request ends, and how it is then taken.
const ENDS: [&str; 6] = [
    "success",
    "UR",
    "CRS",
    "CA",
    "timed out",
    "ended by the drop",
];
const TAKEN: [&str; 2] = ["OKAY", "SLVERR"];

/// The points of this file.
pub fn required() -> Vec<String> {
    let mut list: Vec<String> = PLAIN.lines().skip(1).map(String::from).collect();
    let mut add = |point: String| list.push(point);
    for way in ["read", "write"] {
        for (bus, up, down) in GETS {
            add(format!("device not 0: {bus}, link up, {way} gets {up}"));
            add(format!("device not 0: {bus}, link down, {way} gets {down}"));
        }
        for end in ENDS {
            add(format!("type 1 {way}, device not 0: {end}"));
        }
        for response in TAKEN {
            add(format!("type 1 {way}, device not 0: taken {response}"));
        }
    }
    add("type 1 read, device not 0: poisoned".to_string());
    add("type 1 read, device not 0: taken all ones".to_string());
    for device in 0..32 {
        add(format!("type 1: device {device}"));
        if device != 0 {
            add(format!("device not 0: {device} gets 11"));
        }
    }
    for function in 0..8 {
        add(format!("type 0: function {function}"));
        add(format!("type 1: function {function}"));
    }
    for bits in 1..9 {
        add(format!("type 1, device not 0: {bits} bus bits"));
    }
    list
}

/// Primary, secondary and subordinate.
fn buses(bridge: &Bridge) -> [u64; 3] {
    let [primary, secondary, subordinate, _] = bridge.registers()[0].to_le_bytes();
    [primary, secondary, subordinate].map(u64::from)
}

/// How a bus lies to the bus numbers.
fn lies(bridge: &Bridge, bus: u64) -> &'static str {
    if bus >> bridge.settings().bus_bits != 0 {
        return "bus past the space";
    }
    let [primary, secondary, subordinate] = buses(bridge);
    let inside = secondary <= bus && bus <= subordinate;
    match (bus == primary, bus == secondary) {
        (true, true) => "primary bus, which is secondary",
        (true, false) if inside => "primary bus inside the range",
        (true, false) => "primary bus",
        (false, true) if inside => SECONDARY,
        (false, true) => "secondary bus above subordinate",
        (false, false) if inside => INSIDE,
        (false, false) => "bus outside",
    }
}

fn way(access: &Access) -> &'static str {
    if access.write {
        "write"
    } else {
        "read"
    }
}

impl Coverage {
    /// One event; `memory.below` is the way of the last access accepted, where it
    /// was a type 1 request to a device above 0.
    pub(super) fn devices(
        &mut self,
        before: &Bridge,
        event: &Event,
        outcome: &Outcome,
        machine: &Machine,
        memory: &mut Memory,
    ) {
        let Outcome::Call(answer) = outcome else {
            return;
        };
        match event {
            Event::Config { access, .. } => {
                if access.offset >> 15 & 31 != 0 {
                    self.above_zero(before, access, answer.number);
                }
                if answer.number == 0 {
                    memory.below = self.request(before, access, answer, machine);
                }
            }
            Event::Release { slot, .. } if *slot == CONFIG_SLOT && answer.number == 0 => {
                if let Some(way) = memory.below.take() {
                    self.taken_below(way, answer);
                }
            }
            _ => {}
        }
        let was_open = before.config_slot().is_open();
        let ended = was_open && machine.bridge.config_slot().is_finished();
        if let Some(way) = memory.below.filter(|_| ended) {
            self.hit(format!("type 1 {way}, device not 0: {}", end(event)));
        }
    }

    /// A device above 0 on any bus.
    fn above_zero(&mut self, before: &Bridge, access: &Access, number: u32) {
        let bus = lies(before, access.offset >> 20);
        let link = if before.link_is_up() { "up" } else { "down" };
        let why = match number {
            8 => "area too short".to_string(),
            5 => "slot not free".to_string(),
            _ => format!("link {link}, {}", way(access)),
        };
        self.hit(format!("device not 0: {bus}, {why} gets {number}"));
        if before.free_tags().is_empty() {
            self.hit(format!("device not 0: {bus}, no tag free gets {number}"));
        }
        if number == 11 {
            let device = access.offset >> 15 & 31;
            self.hit(format!("device not 0: {device} gets 11"));
            let [_, secondary, subordinate] = buses(before);
            let is = if secondary == subordinate {
                "is"
            } else {
                "below"
            };
            self.hit(format!("device not 0: secondary {is} subordinate gets 11"));
        }
    }

    /// An accepted access; its way, where it is a type 1 request to a device above
    /// 0.
    fn request(
        &mut self,
        before: &Bridge,
        access: &Access,
        answer: &Answer,
        machine: &Machine,
    ) -> Option<&'static str> {
        if answer.sent == 0 {
            return None;
        }
        let (device, function) = (access.offset >> 15 & 31, access.offset >> 12 & 7);
        assert_eq!(u64::from(machine.area[9]), device << 3 | function);
        let kind = machine.area[0] & 1;
        self.hit(format!("type {kind}: function {function}"));
        if kind == 0 {
            return None;
        }
        self.hit(format!("type 1: device {device}"));
        if device == 0 {
            return None;
        }
        let [_, secondary, subordinate] = buses(before);
        let bus = access.offset >> 20;
        let place = match bus {
            _ if bus == secondary + 1 => "the bus after secondary",
            _ if bus == subordinate => "subordinate bus",
            _ => "between them",
        };
        let bits = before.settings().bus_bits;
        self.hit(format!("type 1, device not 0: {place}"));
        self.hit(format!("type 1, device not 0: function {function}"));
        self.hit(format!("type 1, device not 0: {bits} bus bits"));
        Some(way(access))
    }

    fn taken_below(&mut self, way: &str, answer: &Answer) {
        let response = match answer.response {
            Response::Okay if answer.data == u32::MAX => "all ones",
            Response::Okay => "OKAY",
            _ => "SLVERR",
        };
        self.hit(format!("type 1 {way}, device not 0: taken {response}"));
    }
}

/// What the event means for the request that it ends.
fn end(event: &Event) -> &'static str {
    match event {
        Event::Completion { bytes, .. } => {
            let value = read_completion(&bytes[..12]).expect("well formed");
            match value.status {
                0 if value.poisoned => "poisoned",
                0 => "success",
                2 => "CRS",
                4 => "CA",
                _ => "UR",
            }
        }
        Event::Tick { .. } => "timed out",
        _ => "ended by the drop",
    }
}
