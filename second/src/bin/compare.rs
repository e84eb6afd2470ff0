//! `compare PLAYER SEED_FROM SEED_TO [EVENTS]` plays generated seeds, valid and
//! damaged, and the files at the edges of the format on this program and on
//! another player; it fails with the first difference and keeps the file. Exit
//! status: 0 equal, 1 different, 2 trouble, such as a player whose log is not
//! whole. `compare --captures PLAYER SEED_FROM SEED_TO [EVENTS]` does the same with
//! packed captures.
use second::capture::lines;
use second::generate::{captures, damage, edges, session_edges, traffic, DEFAULT_EVENTS};
use second::run::{lines_of, log_of, own_log, Feeding};
use second::say;
use second::say::fail;
use second::shrink::difference;
use std::process::exit;

const CAPTURES: &str = "--captures";

fn main() {
    let mut arguments: Vec<String> = std::env::args().skip(1).collect();
    let packed = arguments.first().is_some_and(|a| a == CAPTURES);
    if packed {
        arguments.remove(0);
    }
    let number = |index: usize| arguments.get(index).and_then(|a| a.parse::<u64>().ok());
    let (Some(player), Some(from), Some(to)) = (arguments.first(), number(1), number(2)) else {
        eprintln!("usage: compare [{CAPTURES}] PLAYER SEED_FROM SEED_TO [EVENTS]");
        exit(2);
    };
    let events = number(3).map_or(DEFAULT_EVENTS, |n| n as usize);
    match packed {
        true => compare_captures(player, from, to, events),
        false => compare_traffic(player, from, to, events),
    }
}

fn compare_traffic(player: &str, from: u64, to: u64, events: usize) {
    let mut lines = 0;
    for seed in from..=to {
        let bytes = traffic(seed, events).encode();
        lines += compare(player, &format!("seed-{seed}"), &bytes);
        let damaged = damage(&bytes, seed);
        lines += compare(player, &format!("seed-{seed}-damaged"), &damaged);
    }
    for (name, bytes) in edges().into_iter().chain(session_edges()) {
        compare(player, name, &bytes);
    }
    say!("{} seeds, {lines} lines, 0 differences", to - from + 1);
}

/// The number of lines in the log.
fn compare(player: &str, name: &str, bytes: &[u8]) -> usize {
    let other = log_of(player, bytes);
    same(player, name, bytes, own_log(bytes), other, "traffic")
}

fn compare_captures(player: &str, from: u64, to: u64, events: usize) {
    let mut files = 0;
    let mut lines = 0;
    let mut one = |name: &str, bytes: &[u8], feeding: Feeding| {
        let other = lines_of(player, bytes, feeding);
        lines += same(player, name, bytes, lines::of(bytes), other, "capture");
        files += 1;
    };
    for seed in from..=to {
        // Each way, for right captures and for damaged ones.
        let ways = [Feeding::Pipe, Feeding::Blocks(seed), Feeding::File];
        let way = |turn: u64| ways[((seed + turn) % 3) as usize];
        let right = captures::capture(seed, events).bytes();
        one(&format!("seed-{seed}"), &right, way(0));
        let damaged = captures::damaged(seed, events);
        one(&format!("seed-{seed}-damaged"), &damaged, way(1));
    }
    for (turn, (name, bytes)) in captures::edges().iter().enumerate() {
        let ways = [Feeding::Pipe, Feeding::Blocks(turn as u64), Feeding::File];
        one(name, bytes, ways[turn % 3]);
    }
    // Beside the first and the last line of each file there is one for each event.
    let events = lines - 2 * files;
    say!("{files} captures, {events} events, {lines} lines, 0 differences");
}

/// The number of lines, or the end at a difference.
fn same(
    player: &str,
    name: &str,
    bytes: &[u8],
    own: String,
    other: Result<String, String>,
    suffix: &str,
) -> usize {
    let other = other.unwrap_or_else(|why| fail(format_args!("{player}: {name}: {why}")));
    let Some(found) = difference(&own, &other) else {
        return own.lines().count();
    };
    let file = format!("{name}.{suffix}");
    say!("{name} differs at line {}", found.line + 1);
    say!("  here:  {}", found.one);
    say!("  there: {}", found.other);
    match std::fs::write(&file, bytes) {
        Ok(()) => say!("kept as {file}"),
        Err(error) => say!("{file}: {error}"),
    }
    exit(1);
}
