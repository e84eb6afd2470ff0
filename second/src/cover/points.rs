//! The points that a run must reach.

use super::{devices, errors, sessions};
use crate::bridge::{REGISTERS, WORD_INFO};

const PLAIN: &str = "
settings: count below 1
settings: count above 6
settings: size no power of two
settings: size below 2^12
settings: size above 2^40
settings: base no multiple
settings: target no multiple
settings: ranges overlap
settings: bus bits 0
settings: bus bits above 8
settings: read limit no power of two or below 128
settings: read limit above 4,096
settings: write limit no power of two or below 128
settings: write limit above 1,024
settings: time limit 0
settings: time limit above 65,535
settings: requester above 16 bits
window: base 0
window: ends at 2^64
window: target 0
window: target ends at 2^64
window: 2^12 bytes
window: 2^40 bytes
window: first byte
window: last byte
read: 256 beats
read: one beat
read: limit 4,096, whole page
read: 3-word header
read: 4-word header
read: all 32 tags
write: 3-word header
write: 4-word header
write: whole page
poison: memory
poison: configuration read
poison: then failing status
poison: then timeout
read: two pieces failed
read: failed in two ways
unexpected: requester ID
unexpected: tag rests (late after timeout)
unexpected: tag free
unexpected: no such tag
unexpected: link down
unexpected: count
unexpected: lower address
unexpected: too long
unexpected: success without data
unexpected: CRS for memory
unexpected: configuration shape
unexpected: poisoned
malformed: short
malformed: first byte
malformed: reserved bits
malformed: payload length
malformed: length without data
malformed: EP without data
malformed: status with data
tags: reuse
tags: reuse after resting and a drop
tags: lowest free is not 0
timeout: memory
timeout: configuration read
timeout: configuration write
timeout: several pieces at one tick
timeout: around the counter's end
timeout: after a lost part
ticks: counter starts again at zero
ticks: T - 1 open
link: up
link: up again
link: down again
link: drop with nothing open
link: drop with everything open
link: drop with all 32 tags taken
link: drop with resting tags
link: drop keeps a finished answer
link: drop keeps a finished configuration answer
link: drop with a failed piece
config: local with the link down
config: local, device not 0
config: type 0 read
config: type 0 write
config: type 1 read
config: type 1 write
config: offset at 2^(20+n) or over
release: memory OKAY
release: memory SLVERR
release: memory DECERR
release: configuration OKAY
release: configuration all ones
release: configuration SLVERR
release: after a drop
look: up to 16 bytes
look: more than 16 bytes
look: configuration slot
line: high
line: kept low by 134
request reader: wrong size
request reader: first byte
request reader: EP
request reader: reserved bits
request reader: enables
request reader: 4 words, below 2^32
request reader: address bits
request reader: configuration length
request reader: extended register
request writer: length
request writer: requester
request writer: tag
request writer: enables
request writer: address
request writer: configuration field
completion reader: wrong size
completion reader: first byte
completion reader: reserved bits
completion reader: shape
completion writer: shape
completion writer: completer
completion writer: status
completion writer: count
completion writer: requester
completion writer: tag
completion writer: lower address
";

/// The words of the local space that do something.
pub fn local_words() -> Vec<u32> {
    [&[WORD_INFO], &REGISTERS[..]].concat()
}

pub const BITS: [u32; 11] = [0, 8, 9, 10, 11, 20, 21, 22, 23, 24, 25];

pub fn required() -> Vec<String> {
    let mut list: Vec<String> = PLAIN
        .lines()
        .filter(|l| !l.is_empty())
        .map(String::from)
        .collect();
    let mut add = |point: String| list.push(point);
    for bit in BITS {
        add(format!("decode: bit {bit} set"));
        add(format!("decode: bit {bit} cleared by a write"));
    }
    for status in 0..8 {
        if status != 2 {
            add(format!("status: {status} for memory"));
        }
        add(format!("status: {status} for configuration read"));
        add(format!("status: {status} for configuration write"));
    }
    for shift in 0..5 {
        let limit = 128 << shift;
        add(format!("read: several pieces, limit {limit}"));
        add(format!("read: several pieces OKAY, limit {limit}"));
        if limit <= 1024 {
            add(format!("write: several pieces, limit {limit}"));
        }
    }
    for number in 1..4 {
        add(format!("read: start mod 4 is {number}"));
        add(format!("write: start mod 4 is {number}"));
    }
    for number in 0..6 {
        add(format!("burst: size code {number}"));
        add(format!("windows: {}", number + 1));
    }
    for way in ["arrays", "list"] {
        // The count alone makes the difference.
        for records in 0..8 {
            add(format!("made from {way}: {records} records"));
        }
        add(format!("made from {way}: 0"));
        add(format!("made from {way}: 1"));
    }
    for word in local_words() {
        add(format!("config: local read of {word:03X}"));
        add(format!("config: local write of {word:03X}"));
    }
    add("config: local read of others".to_string());
    add("config: local write of others".to_string());
    for strobes in 0..16 {
        add(format!("config: strobes {strobes}"));
    }
    for bits in 1..9 {
        add(format!("config: routed, {bits} bus bits"));
    }
    list.extend(errors::required());
    list.extend(sessions::required());
    list.extend(devices::required());
    list
}
