//! Times the choice of a window: before request A3, now, and in plain Rust, one thread, in turn, addresses made beforehand.
//! With the argument `compare` it only compares the answers.
mod plain;
mod proved;
mod table;

use std::hint::black_box;
use std::time::Instant;
use table::{Random, Table, Window};

const RUN: usize = 200_000;
const ROUNDS: usize = 31;

/// One way to make every choice of a list of addresses; the sum of its answers.
type Way = fn(&Table, &[u64]) -> u64;

fn one_by_one(t: &Table, addresses: &[u64], f: impl Fn(&Table, u64) -> u64) -> u64 {
    addresses.iter().fold(0, |sum: u64, &a| sum.wrapping_add(f(t, a)))
}

/// Before, now, plain Rust over all six, plain Rust over those in use.
struct Trial {
    title: &'static str,
    ways: [Way; 4],
}

const TRIALS: [Trial; 3] = [
    Trial {
        title: "the choice in a loop: window_of",
        ways: [proved::choices_former, proved::choices, plain::choices_of_six, plain::choices],
    },
    Trial {
        title: "one call a choice: window_of",
        ways: [
            |t, a| one_by_one(t, a, proved::choice_former),
            |t, a| one_by_one(t, a, proved::choice),
            |t, a| one_by_one(t, a, plain::choice_of_six),
            |t, a| one_by_one(t, a, plain::choice),
        ],
    },
    Trial {
        title: "as an access makes it, in a loop: no_window, shift_of, translate (Rust: one choice)",
        ways: [proved::accesses_former, proved::accesses, plain::accesses_of_six, plain::accesses],
    },
];

/// Six right windows of unlike sizes, in the order of their bases.
fn six_windows() -> Table {
    let mut windows = [Window::default(); 6];
    for (i, w) in windows.iter_mut().enumerate() {
        w.base = 0x1000_0000 * (i as u64 + 1);
        w.size = 0x1_0000 << i;
        w.target = 0x9000_0000 + 0x400_0000 * i as u64;
    }
    Table::new(6, windows)
}

/// Right windows: powers of two from 2^12 to 2^40, multiples of the size, apart, in any order.
fn right_windows(random: &mut Random) -> [Window; 6] {
    let mut places = [0, 1, 2, 3, 4, 5];
    for i in (1..6).rev() {
        places.swap(i, random.below(i as u64 + 1) as usize);
    }
    places.map(|i: u64| {
        let size = 1 << (12 + random.below(29));
        Window { base: (i << 41) + size * random.below((1 << 41) / size), size, target: size * random.below(1 << 20) }
    })
}

/// Every way that looks at the count answers alike, address by address, on right tables and on any others.
fn compare(random: &mut Random) -> u64 {
    let mut compared = 0;
    for turn in 0..200_000u64 {
        let shift = random.below(64);
        let mut windows = right_windows(random);
        if turn % 4 > 0 {
            windows = windows.map(|_| match turn % 4 {
                1 => Window { base: random.next(), size: random.next(), target: random.next() },
                2 => Window { base: random.next() >> shift, size: random.next() >> shift, target: 0 },
                _ => Window { base: random.below(8).wrapping_sub(4), size: random.below(8).wrapping_sub(2), target: 3 },
            });
        }
        let t = Table::new(if turn % 8 < 6 { random.below(8) as u32 } else { random.next() as u32 }, windows);
        for _ in 0..4 {
            let w = t.windows[random.below(6) as usize];
            let near = random.below(4).wrapping_sub(2);
            let a = match random.below(4) {
                0 => random.next(),
                1 => w.base.wrapping_add(near),
                2 => w.base.wrapping_add(w.size).wrapping_add(near),
                _ => w.base.wrapping_add(random.next() % w.size.max(1)),
            };
            for trial in &TRIALS {
                let [before, now, _, plain] = trial.ways.map(|way| way(&t, &[a]));
                assert!(before == plain && now == plain, "{}: {before} {now} {plain} at {a:x}", trial.title);
            }
            compared += 1;
        }
    }
    compared
}

fn median(mut times: Vec<f64>) -> f64 {
    times.sort_by(f64::total_cmp);
    times[times.len() / 2]
}

/// Nanoseconds an address, of each way, and the sums of their answers. Each round begins with another way.
fn time(trial: &Trial, t: &Table, addresses: &[u64]) -> ([f64; 4], [u64; 4]) {
    let mut times = [const { Vec::new() }; 4];
    let mut sums = [0; 4];
    for round in 0..=ROUNDS {
        for turn in 0..4 {
            let i = (round + turn) % 4;
            let begin = Instant::now();
            sums[i] = black_box(trial.ways[i](black_box(t), black_box(addresses)));
            // the first round is not counted
            if round > 0 {
                times[i].push(begin.elapsed().as_nanos() as f64 / addresses.len() as f64);
            }
        }
        assert!(sums.iter().all(|&s| s == sums[0]) || round == 0, "the sums differ: {sums:?}");
    }
    (times.map(median), sums)
}

fn say(name: &str, (ns, sums): ([f64; 4], [u64; 4])) {
    let [before, now, six, used] = ns;
    println!(
        "{name:10} {before:7.2} {now:7.2} {:6.2}   {six:7.2} {:6.2}   {used:7.2} {:6.2}   {} {}",
        now / before,
        now / six,
        now / used,
        sums[0],
        sums[1]
    );
}

fn main() {
    let mut random = Random(0x9E37_79B9_7F4A_7C15);
    let only = match std::env::args().nth(1).as_deref() {
        None => false,
        Some("compare") => true,
        Some(word) => {
            eprintln!("windows: no such argument: {word} (none, or compare)");
            std::process::exit(2);
        }
    };
    println!("{} answers compared: all alike", compare(&mut random));
    if only {
        return;
    }

    let t = six_windows();
    let one = Table::new(1, t.windows);
    let mut runs: Vec<u64> = Vec::with_capacity(6 * RUN);
    for w in &t.windows {
        runs.extend((0..RUN).map(|_| w.base + random.below(w.size)));
    }
    let mut mixed = runs.clone();
    for i in (1..mixed.len()).rev() {
        mixed.swap(i, random.below(i as u64 + 1) as usize);
    }
    let outside: Vec<u64> = (0..RUN).map(|_| 0xA000_0000 + random.below(1 << 28)).collect();

    println!("nanoseconds an address, medians of {ROUNDS} rounds; a window's row has {RUN} addresses, all 1,200,000 in six runs");
    // a first pass that is not counted, so that the processor runs at its full speed
    for trial in &TRIALS {
        time(trial, &t, &runs);
    }
    for trial in &TRIALS {
        println!("\n{}", trial.title);
        println!("            before     now  ratio   Rust, 6  ratio   Rust, n  ratio   sums before, now");
        for (i, run) in runs.chunks(RUN).enumerate() {
            say(&format!("window {i}"), time(trial, &t, run));
        }
        say("all", time(trial, &t, &runs));
        say("mixed", time(trial, &t, &mixed));
        say("none holds", time(trial, &t, &outside));
        // a table with one window in use; the other five entries hold none of these addresses
        say("one: held", time(trial, &one, &runs[..RUN]));
        say("one: none", time(trial, &one, &outside));
    }
}
