//! The lines that the program prints.

use super::{Event, Fault, Player, Verdict};
use std::io::Write;

pub const FIRST: &str = "capture";

/// "for each event its number, its name ... and its refusal number unless 0"
pub fn event(out: &mut Vec<u8>, count: u64, event: &Event, number: u32) {
    let name = event.name();
    let written = match number {
        0 => writeln!(out, "{count} {name}"),
        _ => writeln!(out, "{count} {name} {number}"),
    };
    written.expect("memory takes every line");
}

/// The last line.
pub fn last(verdict: Verdict) -> String {
    match verdict {
        Verdict::End(count) => format!("end {count} of {count}"),
        Verdict::Cut(count) => format!("cut after {count}"),
        Verdict::Bad(fault, at) => format!("bad {} at {at}", fault_name(fault)),
    }
}

pub fn fault_name(fault: Fault) -> &'static str {
    match fault {
        Fault::Kind => "kind",
        Fault::Length => "length",
        Fault::Padding => "padding",
        Fault::Count => "count",
    }
}

/// All lines of a capture.
pub fn of(bytes: &[u8]) -> String {
    let mut lines = format!("{FIRST}\n").into_bytes();
    let mut player = Player::default();
    player.play(bytes, u64::MAX, |count, item, answer| {
        event(&mut lines, count, item, answer.number);
    });
    lines.extend(last(player.verdict()).bytes());
    lines.push(b'\n');
    String::from_utf8(lines).expect("the lines are ASCII")
}
