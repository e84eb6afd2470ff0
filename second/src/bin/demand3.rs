//! `demand3 SEED_FROM SEED_TO [EVENTS]` tries the claims of demand 3 and fails
//! with a counterexample.
use second::demand3::{alike, honest, Figures};
use second::say;

fn main() {
    let numbers: Vec<u64> = std::env::args()
        .skip(1)
        .filter_map(|a| a.parse().ok())
        .collect();
    let (from, to) = match numbers[..] {
        [from, to, ..] if from <= to => (from, to),
        _ => {
            eprintln!("usage: demand3 SEED_FROM SEED_TO [EVENTS]");
            std::process::exit(2);
        }
    };
    let events = numbers.get(2).map_or(1000, |n| *n as usize);
    let mut figures = Figures::default();
    for seed in from..=to {
        for trial in [honest(seed, events), alike(seed, events)] {
            match trial {
                Ok(more) => figures.add(&more),
                Err(found) => {
                    found.print(seed);
                    std::process::exit(1);
                }
            }
        }
    }
    say!("{} seeds, no counterexample", to - from + 1);
    for (name, figure) in figures.list() {
        say!("{figure:>12}  {name}");
    }
    // A success must not be empty.
    let empty = figures.list().iter().any(|(_, figure)| *figure == 0);
    if to - from >= 50 && empty {
        say!("some figure is 0");
        std::process::exit(1);
    }
}
