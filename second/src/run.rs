//! Runs a player program on a traffic file or a capture.

use crate::generate::Random;
use std::fs::{self, File};
use std::io::{self, ErrorKind, Write};
use std::process::{Command, ExitStatus, Output, Stdio};

/// The words by which the last line of a log begins; only after the first a player
/// says that all was well.
const LOG_ENDS: [&str; 3] = ["end", "cut", "damaged"];
const CAPTURE_ENDS: [&str; 3] = ["end", "cut", "bad"];

/// How a player gets its input.
#[derive(Clone, Copy, Debug)]
pub enum Feeding {
    /// Through a pipe, all at once.
    Pipe,
    /// Through a pipe, in odd-sized blocks by this seed.
    Blocks(u64),
    /// From a file.
    File,
}

/// A player as it is named in an argument: a path, with arguments after spaces.
pub fn command(player: &str) -> Command {
    let mut words = player.split_whitespace();
    let mut command = Command::new(words.next().unwrap_or(""));
    command.args(words);
    command
}

/// What the player prints for the file, or why that is no whole log.
///
/// What it writes on standard error is passed on and is no failure by itself: a
/// player may make remarks. The status and the log's last line decide.
pub fn log_of(player: &str, bytes: &[u8]) -> Result<String, String> {
    whole_log(player, bytes, Feeding::Pipe, &LOG_ENDS)
}

/// The same of a capture and its lines.
pub fn lines_of(player: &str, bytes: &[u8], feeding: Feeding) -> Result<String, String> {
    whole_log(player, bytes, feeding, &CAPTURE_ENDS)
}

fn whole_log(
    player: &str,
    bytes: &[u8],
    feeding: Feeding,
    ends: &[&'static str],
) -> Result<String, String> {
    let run = match feeding {
        Feeding::Pipe => run(player, bytes, None),
        Feeding::Blocks(seed) => run(player, bytes, Some(Random::new(seed))),
        Feeding::File => run_on_file(player, bytes),
    };
    let output = run.map_err(|error| error.to_string())?;
    pass_on(player, &output.stderr);
    let log = String::from_utf8_lossy(&output.stdout).into_owned();
    match trouble_by(output.status, &log, ends) {
        None => Ok(log),
        Some(why) => Err(why),
    }
}

fn run(player: &str, bytes: &[u8], cutting: Option<Random>) -> io::Result<Output> {
    let mut child = start(player, Stdio::piped())?.spawn()?;
    let mut input = child.stdin.take().expect("a piped input");
    let bytes = bytes.to_vec();
    let feeder = std::thread::spawn(move || match cutting {
        None => input.write_all(&bytes),
        Some(random) => blocks(&bytes, random, |block| input.write_all(block)),
    });
    let output = child.wait_with_output()?;
    match feeder.join().expect("the feeder does not panic") {
        // A player may stop reading at a fault, so a broken pipe is no error.
        Err(error) if error.kind() != ErrorKind::BrokenPipe => Err(error),
        _ => Ok(output),
    }
}

fn run_on_file(player: &str, bytes: &[u8]) -> io::Result<Output> {
    let path = std::env::temp_dir().join(format!("compare-{}.capture", std::process::id()));
    fs::write(&path, bytes)?;
    let output = File::open(&path)
        .and_then(|file| start(player, Stdio::from(file)))
        .and_then(|mut command| command.output());
    fs::remove_file(&path)?;
    output
}

fn start(player: &str, input: Stdio) -> io::Result<Command> {
    let mut command = command(player);
    command.stdin(input).stdout(Stdio::piped());
    command.stderr(Stdio::piped());
    Ok(command)
}

/// Blocks of one byte up to some bound, of which a long file has few.
fn blocks(
    bytes: &[u8],
    mut random: Random,
    mut write: impl FnMut(&[u8]) -> io::Result<()>,
) -> io::Result<()> {
    let few = bytes.len() > 100_000;
    let bound = match few {
        true => random.pick(&[4099, 65_537]),
        false => random.pick(&[1, 3, 17, 1021, 4116]),
    };
    let mut rest = bytes;
    while !rest.is_empty() {
        let length = random.between(1, bound) as usize;
        let (block, more) = rest.split_at(length.min(rest.len()));
        write(block)?;
        rest = more;
    }
    Ok(())
}

fn pass_on(player: &str, said: &[u8]) {
    for line in String::from_utf8_lossy(said).lines() {
        let _ = writeln!(io::stderr(), "{player}: {line}");
    }
}

/// The word `end`, `cut` or `damaged` by which a log's last line begins; nothing
/// of another line.
pub fn last_word(line: &str) -> Option<&str> {
    word_of(line, &LOG_ENDS)
}

fn word_of<'a>(line: &'a str, ends: &[&'static str]) -> Option<&'a str> {
    let word = line.split(' ').next()?;
    ends.contains(&word).then_some(word)
}

/// The same of a whole log; nothing where the log is not whole.
pub fn log_end(log: &str) -> Option<&str> {
    end_by(log, &LOG_ENDS)
}

fn end_by<'a>(log: &'a str, ends: &[&'static str]) -> Option<&'a str> {
    let line = log.strip_suffix('\n')?.rsplit('\n').next()?;
    word_of(line, ends)
}

/// Why a player's log cannot be compared. After `cut` and `damaged` every status
/// will do, since the format leaves it to the player; after `end` only a failure
/// explains one that is not 0.
pub fn trouble(status: ExitStatus, log: &str) -> Option<String> {
    trouble_by(status, log, &LOG_ENDS)
}

fn trouble_by(status: ExitStatus, log: &str, ends: &[&'static str]) -> Option<String> {
    match end_by(log, ends) {
        Some("end") if status.success() => None,
        Some("cut" | "damaged" | "bad") if status.code().is_some() => None,
        Some(_) => Some(status.to_string()),
        None => {
            let end = log.lines().last().unwrap_or("");
            Some(format!(
                "{status}, its log is not whole: it ends in {end:?}"
            ))
        }
    }
}

/// The log that this program prints.
pub fn own_log(bytes: &[u8]) -> String {
    let mut log = Vec::new();
    crate::traffic::play(bytes, &mut log).expect("memory takes every line");
    String::from_utf8(log).expect("a log is ASCII")
}
