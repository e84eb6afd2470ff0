//! Writes the records of a packed capture.

use crate::plain::Burst;

fn record(out: &mut Vec<u8>, kind: u8, parts: &[&[u8]]) {
    let length: usize = parts.iter().map(|part| part.len()).sum();
    out.push(kind << 4);
    out.extend((length as u16).to_be_bytes());
    for part in parts {
        out.extend_from_slice(part);
    }
}

pub fn end(out: &mut Vec<u8>, count: u32) {
    record(out, 0, &[&count.to_be_bytes()]);
}

fn shape(burst: Burst) -> [u8; 2] {
    let bits = burst.size << 13 | (burst.beats - 1) << 5 | burst.kind << 3;
    (bits as u16).to_be_bytes()
}

pub fn read(out: &mut Vec<u8>, burst: Burst) {
    record(out, 1, &[&burst.address.to_be_bytes(), &shape(burst)]);
}

pub fn write(out: &mut Vec<u8>, burst: Burst, data: &[u8]) {
    record(out, 2, &[&burst.address.to_be_bytes(), &shape(burst), data]);
}

pub fn config(out: &mut Vec<u8>, offset: u32, write: Option<(u32, u32)>) {
    let (flag, (strobes, data)) = match write {
        Some(chosen) => (1, chosen),
        None => (0, (0, 0)),
    };
    let front = u128::from(offset) << 44 | flag << 43 | u128::from(strobes) << 39;
    let bits = front | u128::from(data) << 7;
    record(out, 3, &[&bits.to_be_bytes()[7..]]);
}

pub fn completion(out: &mut Vec<u8>, header: &[u8], payload: &[u8]) {
    record(out, 4, &[header, payload]);
}

pub fn link(out: &mut Vec<u8>, up: bool) {
    record(out, 5, &[&[u8::from(up) << 7]]);
}

pub fn tick(out: &mut Vec<u8>) {
    record(out, 6, &[]);
}

pub fn take(out: &mut Vec<u8>, slot: u32) {
    record(out, 7, &[&[(slot as u8) << 4]]);
}
