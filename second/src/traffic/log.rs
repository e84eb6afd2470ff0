//! The lines of the log.

use super::{adler, Event, Fault, Machine, Outcome};
use crate::answer::{Answer, Response};
use crate::header::{Completion, Request, Target};
use std::fmt::Write;

/// The line of the new call.
pub fn first(machine: &Machine) -> String {
    format!("new {}{}", machine.number, tail(machine))
}

/// The last line of a file that is cut or damaged.
pub fn fault(fault: &Fault) -> String {
    format!("{} {} at {}", fault.what, fault.part, fault.at)
}

/// The line of one event.
pub fn line(index: u32, event: &Event, outcome: &Outcome, machine: &Machine) -> String {
    let mut text = format!("{} {} {}", index, event.name(), outcome.number());
    match outcome {
        Outcome::Call(answer) => {
            text += &answer_part(answer);
            text += &area_part(event, machine);
            text += &tail(machine);
        }
        Outcome::Look { part, .. } => {
            text += &look_part(part);
            text += &tail(machine);
        }
        Outcome::Written(written) => {
            text += &format!(" sent {}", written.length);
            text += &area_part(event, machine);
        }
        Outcome::Request(Some(value)) => text += &request_part(value),
        Outcome::Completion(Some(value)) => text += &completion_part(value),
        Outcome::Request(None) | Outcome::Completion(None) => {}
    }
    text
}

fn answer_part(answer: &Answer) -> String {
    let response = match answer.response {
        Response::None => "none",
        Response::Okay => "OKAY",
        Response::Slverr => "SLVERR",
        Response::Decerr => "DECERR",
        Response::Wait => "wait",
    };
    let mut text = format!(
        " {} slot {} sent {} data {:08x}",
        response, answer.slot, answer.sent, answer.data
    );
    // Left out where it is 0: so it is in all answers but an accepted release's,
    // whose lines are then the only ones that it changes.
    if answer.session != 0 {
        let _ = write!(text, " session {}", answer.session);
    }
    text
}

/// The checksum of the area that was lent, for the calls that are lent one.
fn area_part(event: &Event, machine: &Machine) -> String {
    match event {
        Event::Read { area, .. }
        | Event::Write { area, .. }
        | Event::Config { area, .. }
        | Event::RequestWriter { area, .. }
        | Event::CompletionWriter { area, .. } => {
            format!(" area {:08x}", adler(&machine.area[..*area as usize]))
        }
        _ => String::new(),
    }
}

fn look_part(part: &[u8]) -> String {
    let mut text = format!(" part {} {:08x} ", part.len(), adler(part));
    if part.is_empty() || part.len() > 16 {
        text.push('-');
    } else {
        for byte in part {
            let _ = write!(text, "{byte:02x}");
        }
    }
    text
}

fn tail(machine: &Machine) -> String {
    let [a, b, c, d, e, status, oldest] = machine.bridge.registers();
    let mut text = format!(
        " regs {a:08x} {b:08x} {c:08x} {d:08x} {e:08x} line {} store {:08x}",
        u32::from(machine.bridge.line()),
        adler(&machine.store)
    );
    // Left out where both are 0, so that logs without messages stay as they were.
    if (status, oldest) != (0, 0) {
        let _ = write!(text, " errors {status:08x} {oldest:08x}");
    }
    text
}

fn request_part(value: &Request) -> String {
    let (kind, address, place) = match value.target {
        Target::Memory(address) => (0, address.0, [0; 5]),
        Target::Config {
            type1,
            bus,
            device,
            function,
            extended,
            register,
        } => (
            1 + u32::from(type1),
            0,
            [bus, device, function, extended, register],
        ),
    };
    let mut text = format!(
        " fields {} {} {:016x}",
        u32::from(value.write),
        kind,
        address
    );
    for field in place {
        let _ = write!(text, " {field}");
    }
    let rest = [
        value.length,
        value.requester,
        value.tag,
        value.last,
        value.first,
    ];
    for field in rest {
        let _ = write!(text, " {field}");
    }
    text
}

fn completion_part(value: &Completion) -> String {
    let fields = [
        u32::from(value.data),
        u32::from(value.poisoned),
        value.length,
        value.completer,
        value.status,
        value.count,
        value.requester,
        value.tag,
        value.lower,
    ];
    let mut text = " fields".to_string();
    for field in fields {
        let _ = write!(text, " {field}");
    }
    text
}
