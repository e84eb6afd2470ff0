//! `generate-capture SEED [EVENTS [damaged]]` writes a packed capture on standard
//! output; `generate-capture long SEED BYTES` one of about so many bytes.
use second::generate::captures::{capture, damaged, long};
use second::generate::DEFAULT_EVENTS;
use second::say::{self, fail, output};
use std::io::{self, BufWriter, Write};

const USAGE: &str =
    "usage: generate-capture SEED [EVENTS [damaged]]\n       generate-capture long SEED BYTES";

fn main() {
    let arguments: Vec<String> = std::env::args().skip(1).collect();
    let words: Vec<&str> = arguments.iter().map(String::as_str).collect();
    let number = |text: &str| text.parse::<u64>().unwrap_or_else(|_| usage());
    let default = DEFAULT_EVENTS as u64;
    match words[..] {
        ["long", seed, bytes] => write_long(number(seed), number(bytes))
            .unwrap_or_else(|error| fail(format_args!("standard output: {error}"))),
        [seed] => write(number(seed), default, false),
        [seed, events] => write(number(seed), number(events), false),
        [seed, events, "damaged"] => write(number(seed), number(events), true),
        _ => usage(),
    }
}

fn usage() -> ! {
    eprintln!("{USAGE}");
    std::process::exit(2)
}

fn write(seed: u64, events: u64, faulty: bool) {
    let events = events as usize;
    say::write(&match faulty {
        true => damaged(seed, events),
        false => capture(seed, events).bytes(),
    });
}

fn write_long(seed: u64, bytes: u64) -> io::Result<()> {
    let mut out = BufWriter::with_capacity(1 << 16, output()?);
    let result = long(seed, bytes, &mut out).and_then(|()| out.flush());
    // What did not get out stays in: dropped as a writer it would try again.
    let _ = out.into_parts();
    result
}
