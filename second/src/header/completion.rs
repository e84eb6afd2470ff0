//! Completion headers.

use super::{fill, front_is_clean, length_bits, length_bytes, pair, poison_bit, Written};

/// Fields are wider than their ranges, so that values out of range exist.
#[derive(Clone, Copy, Debug, PartialEq, Eq)]
pub struct Completion {
    pub data: bool,
    pub poisoned: bool,
    pub length: u32,
    pub completer: u32,
    pub status: u32,
    pub count: u32,
    pub requester: u32,
    pub tag: u32,
    pub lower: u32,
}

impl Completion {
    fn lawful(&self) -> bool {
        self.shape_fits()
            && self.completer <= 0xFFFF
            && self.status <= 7
            && (1..=4096).contains(&self.count)
            && self.requester <= 0xFFFF
            && self.tag <= 0xFF
            && self.lower <= 0x7F
    }

    /// "Without data, length is 0 and EP 0; with data, status is 0. Else
    /// malformed."
    fn shape_fits(&self) -> bool {
        if self.data {
            self.status == 0 && (1..=1024).contains(&self.length)
        } else {
            self.length == 0 && !self.poisoned
        }
    }
}

fn completion_bytes(value: &Completion) -> Option<Vec<u8>> {
    if !value.lawful() {
        return None;
    }
    // "Count 4,096 is written as 0."
    let count = if value.count == 4096 { 0 } else { value.count };
    let mut bytes = vec![if value.data { 0x4A } else { 0x0A }, 0];
    bytes.extend(length_bytes(value.poisoned, value.length));
    bytes.extend((value.completer as u16).to_be_bytes());
    bytes.push((value.status << 5 | count >> 8) as u8);
    bytes.push(count as u8);
    bytes.extend((value.requester as u16).to_be_bytes());
    bytes.push(value.tag as u8);
    bytes.push(value.lower as u8);
    Some(bytes)
}

/// The write completion header call.
pub fn write_completion(value: &Completion, area: &mut [u8]) -> Written {
    fill(area, completion_bytes(value))
}

/// The read completion header call; nothing stands for refusal 12.
pub fn read_completion(bytes: &[u8]) -> Option<Completion> {
    if bytes.len() != 12 || !matches!(bytes[0], 0x0A | 0x4A) || !front_is_clean(bytes) {
        return None;
    }
    // "bit 4 zero" of byte 6 and "bit 7 zero" of byte 11.
    if bytes[6] & 0x10 != 0 || bytes[11] & 0x80 != 0 {
        return None;
    }
    let data = bytes[0] == 0x4A;
    let value = Completion {
        data,
        poisoned: poison_bit(bytes),
        length: match (data, length_bits(bytes)) {
            (true, 0) => 1024,
            (_, bits) => bits,
        },
        completer: pair(&bytes[4..6]),
        status: u32::from(bytes[6] >> 5),
        count: match u32::from(bytes[6] & 15) << 8 | u32::from(bytes[7]) {
            0 => 4096,
            bits => bits,
        },
        requester: pair(&bytes[8..10]),
        tag: u32::from(bytes[10]),
        lower: u32::from(bytes[11]),
    };
    value.lawful().then_some(value)
}
