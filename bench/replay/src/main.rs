//! Replays packed captures (request A5) on the plain bridge and on the proved
//! one. ../replay.sh runs it.
#![deny(unsafe_code)]

mod proved;

use proved::proved;
use replay::compare::{compare, compare_long};
use replay::engine::plain;
use replay::make::{capture, Capture, Mix};
use replay::time::{measure, ALLOWANCE};
use std::process::ExitCode;

const SEEDS: u64 = 100;
const SHORT: usize = 2_000;
const LONG: usize = 1_000_000;
const ROUNDS: usize = 41;
const MIXES: [Mix; 3] = [Mix::Mixed, Mix::Simple, Mix::Ticks];

fn main() -> ExitCode {
    let arguments: Vec<String> = std::env::args().skip(1).collect();
    let words: Vec<&str> = arguments.iter().map(String::as_str).collect();
    let result = match words[..] {
        [] => run(true),
        ["compare"] => run(false),
        _ => Err("say nothing, or compare".to_string()),
    };
    match result {
        Ok(()) => ExitCode::SUCCESS,
        Err(why) => {
            eprintln!("replay: {why}");
            ExitCode::FAILURE
        }
    }
}

fn run(timed: bool) -> Result<(), String> {
    let found = compare(plain, proved, SEEDS, SHORT)?;
    println!(
        "{} captures, right and damaged: {} events with every row, {} by calls of one, {} by calls of 2 to 61: all alike",
        found.captures, found.whole, found.single, found.some,
    );
    for mix in MIXES {
        let capture = capture(mix, 1, LONG);
        let events = compare_long(plain, proved, &capture.bytes)?;
        println!("{mix:?}: {events} events with every row: all alike");
        if timed {
            time(&capture);
        }
    }
    Ok(())
}

fn time(capture: &Capture) {
    let [reads, writes, configs, completions, ups, downs, ticks, takes] = capture.names;
    println!(
        "  {} bytes; {reads} reads, {writes} writes, {configs} configurations, {completions} completions, {} links, \
         {ticks} ticks, {takes} takes; {} refused; accepted reads and good completions {:.1} %",
        capture.bytes.len(),
        ups + downs,
        capture.refused,
        100.0 * (capture.reads + capture.good) as f64 / capture.events as f64,
    );
    let [one, other] = measure([plain, proved], capture, ROUNDS);
    for (name, figure) in [("plain", one), ("proved", other)] {
        println!(
            "  {name:6} {:6.2} ns an event, {:5.1} million events a second; least {:6.2}",
            figure.median,
            1000.0 / figure.median,
            figure.least,
        );
    }
    println!(
        "  proved / plain: {:.2} by the medians of {ROUNDS} rounds, {:.2} by the least; calls with allowance {ALLOWANCE}",
        other.median / one.median,
        other.least / one.least,
    );
}
