//! Plays a packed capture from standard input and prints its lines
//! (docs/CAPTURE.md). A read that fails counts as the end of the input; it is told
//! on standard error, and the status is then 2.
use second::capture::{lines, Player};
use second::say::{fail, input, output, TROUBLE};
use std::fs::File;
use std::io::{self, ErrorKind, Read, Write};
use std::process::exit;

const BLOCK: usize = 65_536;
/// The lines of so many events are printed at once.
const ALLOWANCE: u64 = 8192;

fn main() {
    let mut out = output().unwrap_or_else(|error| trouble(error));
    match play(&mut out).unwrap_or_else(|error| trouble(error)) {
        None => {}
        Some(error) => {
            let _ = writeln!(io::stderr(), "standard input: {error}: taken as its end");
            exit(TROUBLE);
        }
    }
}

fn trouble(error: io::Error) -> ! {
    fail(format_args!("standard output: {error}"))
}

/// A failed write, or else the read that failed.
fn play(out: &mut File) -> io::Result<Option<io::Error>> {
    let mut player = Player::default();
    writeln!(out, "{}", lines::FIRST)?;
    let failed = match input() {
        Ok(mut file) => play_blocks(&mut player, &mut file, out)?,
        Err(error) => Some(error),
    };
    writeln!(out, "{}", lines::last(player.verdict()))?;
    Ok(failed)
}

fn play_blocks(
    player: &mut Player,
    file: &mut File,
    out: &mut File,
) -> io::Result<Option<io::Error>> {
    let mut block = vec![0; BLOCK];
    let mut text = Vec::new();
    while player.reads_on() {
        let mut rest = match file.read(&mut block) {
            Ok(0) => break,
            Ok(length) => &block[..length],
            Err(error) if error.kind() == ErrorKind::Interrupted => continue,
            Err(error) => return Ok(Some(error)),
        };
        while !rest.is_empty() && player.reads_on() {
            let played = player.play(rest, ALLOWANCE, |count, event, answer| {
                lines::event(&mut text, count, event, answer.number);
            });
            rest = &rest[played.bytes..];
            out.write_all(&text)?;
            text.clear();
        }
    }
    Ok(None)
}
