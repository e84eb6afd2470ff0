//! `generate SEED [EVENTS [damaged]]` writes a traffic file on standard output.
use second::generate::{damage, traffic, DEFAULT_EVENTS};

fn main() {
    let arguments: Vec<String> = std::env::args().skip(1).collect();
    let seed = arguments.first().and_then(|a| a.parse().ok());
    let events = match arguments.get(1) {
        Some(text) => text.parse().ok(),
        None => Some(DEFAULT_EVENTS),
    };
    let (Some(seed), Some(events)) = (seed, events) else {
        eprintln!("usage: generate SEED [EVENTS [damaged]]");
        std::process::exit(2);
    };
    let mut bytes = traffic(seed, events).encode();
    if arguments.get(2).is_some_and(|a| a == "damaged") {
        bytes = damage(&bytes, seed);
    }
    second::say::write(&bytes);
}
