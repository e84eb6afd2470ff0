//! `shrink PLAYER_ONE PLAYER_TWO FILE [OUT]` prints the first event on which two
//! players differ and writes a smaller file that still differs to OUT
//! (FILE.small). Exit status: 0 equal, 1 different, 2 trouble.
use second::run::log_of;
use second::say;
use second::say::fail;
use second::shrink::{difference, Difference, Shrinker};
use second::traffic::Traffic;
use std::process::exit;

struct Players {
    one: String,
    other: String,
}

impl Players {
    fn compare(&self, bytes: &[u8]) -> Option<Difference> {
        let log = |command: &str| {
            log_of(command, bytes).unwrap_or_else(|why| fail(format_args!("{command}: {why}")))
        };
        difference(&log(&self.one), &log(&self.other))
    }
}

fn main() {
    let arguments: Vec<String> = std::env::args().skip(1).collect();
    let [one, other, file, ..] = &arguments[..] else {
        eprintln!("usage: shrink PLAYER_ONE PLAYER_TWO FILE [OUT]");
        exit(2);
    };
    let small = format!("{file}.small");
    let out = arguments.get(3).unwrap_or(&small);
    let bytes = std::fs::read(file).unwrap_or_else(|error| fail(format_args!("{file}: {error}")));
    let players = Players {
        one: one.clone(),
        other: other.clone(),
    };
    let Some(found) = players.compare(&bytes) else {
        say!("no difference");
        return;
    };
    show("first difference", &found);
    match Traffic::decode(&bytes) {
        Ok(traffic) => shrink(&players, traffic, &found, out),
        Err(fault) => say!("not shrunk: {} {} at {}", fault.what, fault.part, fault.at),
    }
    exit(1);
}

fn show(title: &str, found: &Difference) {
    match found.event() {
        Some(event) => say!("{title}: line {}, event {event}", found.line + 1),
        None => say!("{title}: line 1, the new call"),
    }
    say!("  one:   {}", found.one);
    say!("  other: {}", found.other);
}

fn shrink(players: &Players, mut traffic: Traffic, found: &Difference, out: &str) {
    traffic.events.truncate(found.line);
    let differs = |t: &Traffic| players.compare(&t.encode()).is_some();
    let small = Shrinker::new(differs, 3000).shrink(&traffic);
    let bytes = small.encode();
    if let Err(error) = std::fs::write(out, &bytes) {
        fail(format_args!("{out}: {error}"));
    }
    say!(
        "{} events, {} bytes: {out}",
        small.events.len(),
        bytes.len()
    );
    for (index, event) in small.events.iter().enumerate() {
        say!("  {index} {event:x?}");
    }
    if let Some(found) = players.compare(&bytes) {
        show("there", &found);
    }
}
