//! How captures end: verdicts, faults by the kind of record, spare bits, cuts.

use super::CaptureCoverage;
use crate::capture::lines::fault_name;
use crate::capture::{next, Fault, Layout, Next, FRONT_BYTES, LAYOUTS};
use crate::capture::{KIND_CONFIG, KIND_END};

/// A record's name; a configuration's body bits count apart in its two forms.
fn form(layout: &Layout, body: &[u8]) -> &'static str {
    match (layout.kind, body.get(3)) {
        (KIND_CONFIG, Some(byte)) if byte & 8 != 0 => "config write",
        (KIND_CONFIG, Some(_)) => "config read",
        _ => layout.name,
    }
}

impl CaptureCoverage {
    /// `rest` begins where the end, the bad record or the cut one does.
    pub(super) fn last(&mut self, found: Next, rest: &[u8], count: u64) {
        match found {
            Next::End { size } => {
                self.hit("verdict end");
                self.behind_end(&rest[size..], count);
            }
            Next::More => {
                self.hit("verdict cut");
                self.cut(rest);
            }
            Next::Bad { fault, .. } => {
                self.hit(format!("verdict bad {}", fault_name(fault)));
                self.fault(fault, rest, count);
            }
            Next::Event { .. } => unreachable!("events are played before"),
        }
        self.hit_if(count == 0 && rest.is_empty(), "empty file");
    }

    fn behind_end(&mut self, behind: &[u8], count: u64) {
        self.hit(match next(count, behind) {
            _ if behind.is_empty() => "nothing behind the end",
            Next::Event { .. } => "an event behind the end",
            Next::End { .. } => "an end behind the end",
            Next::Bad { .. } => "a fault behind the end",
            Next::More => "a cut record behind the end",
        });
    }

    fn cut(&mut self, rest: &[u8]) {
        let Some(first) = rest.first() else {
            return self.hit("cut where a record would begin");
        };
        let layout = &LAYOUTS[usize::from(first >> 4)];
        let name = layout.name;
        let place = match rest {
            [_] => "after 1 byte",
            [_, _] => "after 2 bytes",
            [_, _, _] => "after 3 bytes",
            [_, high, low, body @ ..] => {
                let length = usize::from(u16::from_be_bytes([*high, *low]));
                match length - body.len() {
                    1 => "one byte short",
                    _ => "in the body",
                }
            }
            [] => unreachable!("there is a first byte"),
        };
        self.hit(format!("cut in {name}, {place}"));
        self.hit_if(first % 16 != 0, "cut in a record with bad padding");
    }

    fn fault(&mut self, fault: Fault, rest: &[u8], count: u64) {
        let first = rest[0];
        let zeros = first.is_multiple_of(16);
        match fault {
            Fault::Kind => {
                self.hit(format!("bad kind {}", first >> 4));
                self.hit_if(!zeros, "bad kind with bad padding");
                self.hit_if(rest.len() == 1, "bad kind in the last byte");
                let huge = rest.get(1..3) == Some(&[255, 255]);
                self.hit_if(huge, "bad kind with a length of 65,535");
            }
            Fault::Length => {
                let layout = &LAYOUTS[usize::from(first >> 4)];
                let length = usize::from(u16::from_be_bytes([rest[1], rest[2]]));
                let how = match length {
                    _ if length + 1 == layout.shortest() => "one too short",
                    _ if length < layout.shortest() => "too short",
                    _ if length == layout.longest() + 1 => "one too long",
                    _ => "far too long",
                };
                self.hit(format!("bad length in {}, {how}", layout.name));
                self.hit_if(!zeros, "bad length with bad padding");
                let alone = rest.len() == FRONT_BYTES;
                self.hit_if(alone, "bad length without a body");
            }
            Fault::Padding => self.padding(rest, count),
            Fault::Count => {
                let said = u32::from_be_bytes([rest[3], rest[4], rest[5], rest[6]]);
                let how = match u64::from(said) {
                    _ if u64::from(said) == count + 1 => "one more",
                    _ if u64::from(said) + 1 == count => "one less",
                    _ => "far off",
                };
                self.hit(format!("bad count, {how}"));
            }
        }
    }

    fn padding(&mut self, rest: &[u8], count: u64) {
        let layout = &LAYOUTS[usize::from(rest[0] >> 4)];
        let length = usize::from(u16::from_be_bytes([rest[1], rest[2]]));
        let body = &rest[FRONT_BYTES..FRONT_BYTES + length];
        let set: Vec<String> = spare(layout)
            .into_iter()
            .filter(|(byte, bit)| rest[*byte] >> bit & 1 == 1)
            .map(|(byte, bit)| spare_name(layout, body, byte, bit))
            .collect();
        match &set[..] {
            [alone] => self.hit(alone.clone()),
            _ => self.hit(format!("several spare bits of {}", layout.name)),
        }
        let off = layout.kind == KIND_END && body != (count as u32).to_be_bytes();
        self.hit_if(off, "bad padding with a bad count");
    }
}

/// Byte of the record and bit of each spare bit.
fn spare(layout: &Layout) -> Vec<(usize, u32)> {
    let last = FRONT_BYTES + layout.field_bytes() - 1;
    let behind = (0..layout.padding()).map(|bit| (last, bit));
    (0..4).map(|bit| (0, bit)).chain(behind).collect()
}

fn spare_name(layout: &Layout, body: &[u8], byte: usize, bit: u32) -> String {
    let name = match byte {
        0 => layout.name,
        _ => form(layout, body),
    };
    format!("spare bit {bit} of byte {byte} of {name}")
}

pub(super) fn required() -> Vec<String> {
    let mut list: Vec<String> = [
        "verdict end",
        "verdict cut",
        "verdict bad kind",
        "verdict bad length",
        "verdict bad padding",
        "verdict bad count",
        "empty file",
        "nothing behind the end",
        "an event behind the end",
        "an end behind the end",
        "a fault behind the end",
        "cut where a record would begin",
        "cut in a record with bad padding",
        "bad kind with bad padding",
        "bad kind in the last byte",
        "bad kind with a length of 65,535",
        "bad length with bad padding",
        "bad length without a body",
        "bad padding with a bad count",
        "bad count, one more",
        "bad count, one less",
        "bad count, far off",
    ]
    .map(str::to_string)
    .to_vec();
    list.extend((8..16).map(|kind| format!("bad kind {kind}")));
    for layout in &LAYOUTS {
        list.extend(required_of(layout));
    }
    list
}

fn required_of(layout: &Layout) -> Vec<String> {
    let name = layout.name;
    let mut list = vec![
        format!("bad length in {name}, one too long"),
        format!("bad length in {name}, far too long"),
        format!("several spare bits of {name}"),
        format!("cut in {name}, after 1 byte"),
        format!("cut in {name}, after 2 bytes"),
    ];
    if layout.shortest() > 0 {
        list.push(format!("bad length in {name}, one too short"));
        list.push(format!("cut in {name}, after 3 bytes"));
    }
    if layout.shortest() > 1 {
        list.push(format!("bad length in {name}, too short"));
        list.push(format!("cut in {name}, in the body"));
        list.push(format!("cut in {name}, one byte short"));
    }
    // The two forms of a configuration by its flag, in its fourth byte.
    for body in [[0; 9], [0, 0, 0, 8, 0, 0, 0, 0, 0]] {
        for (byte, bit) in spare(layout) {
            list.push(spare_name(layout, &body, byte, bit));
        }
    }
    // Others have one form, whose bits came twice.
    let mut once = Vec::new();
    for point in list {
        if !once.contains(&point) {
            once.push(point);
        }
    }
    once
}
