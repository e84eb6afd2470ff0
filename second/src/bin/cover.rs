//! `cover SEED_FROM SEED_TO [EVENTS]` plays generated seeds and prints what they
//! reached; it fails where something that can be reached was not. `cover --captures
//! SEED_FROM SEED_TO [EVENTS]` does the same with packed captures.
use second::cover::captures::CaptureCoverage;
use second::cover::Coverage;
use second::generate::DEFAULT_EVENTS;
use second::say;

const CAPTURES: &str = "--captures";

fn main() {
    let packed = std::env::args().nth(1).is_some_and(|a| a == CAPTURES);
    let numbers: Vec<u64> = std::env::args()
        .skip(1)
        .filter_map(|a| a.parse().ok())
        .collect();
    let (from, to) = match numbers[..] {
        [from, to, ..] if from <= to => (from, to),
        _ => {
            eprintln!("usage: cover [{CAPTURES}] SEED_FROM SEED_TO [EVENTS]");
            std::process::exit(2);
        }
    };
    let events = numbers.get(2).map_or(DEFAULT_EVENTS, |n| *n as usize);
    let (text, wrong) = match packed {
        true => CaptureCoverage::of_seeds(from, to, events).report(),
        false => Coverage::of_seeds(from, to, events).report(),
    };
    say::write(text.as_bytes());
    if !wrong.is_empty() {
        say!("\n{} wrong:", wrong.len());
        wrong.iter().for_each(|line| say!("{line}"));
        std::process::exit(1);
    }
}
