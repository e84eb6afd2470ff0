//! `failing PLAYER [--status]` runs a player with input and output that fail and
//! checks that it says so (docs/TRAFFIC.md, "Input and output that fail"): one
//! line on standard error and no last line in the log; with --status also a
//! status that is not 0. Exit status: 0 it does, 1 it does not, 2 trouble.
use second::generate::traffic;
use second::run::{command, last_word, log_end};
use second::say;
use second::say::fail;
use second::traffic::{Event, Traffic, END_BYTES};
use std::fs::{File, OpenOptions};
use std::io::{self, Read, Write};
use std::os::fd::OwnedFd;
use std::os::unix::net::UnixStream;
use std::process::{exit, Child, ExitStatus, Stdio};
use std::thread::{sleep, spawn, JoinHandle};
use std::time::{Duration, Instant};

/// A player that waits for more input than ever comes is stopped after this.
const PATIENCE: Duration = Duration::from_secs(10);
const FULL: &str = "/dev/full";

struct Trial {
    player: String,
    wants_status: bool,
    all_right: bool,
}

/// What a player did.
struct Seen {
    status: ExitStatus,
    log: String,
    said: String,
}

fn main() {
    let arguments: Vec<String> = std::env::args().skip(1).collect();
    let (options, players): (Vec<_>, Vec<_>) = arguments.iter().partition(|a| *a == "--status");
    let [player] = players[..] else {
        eprintln!("usage: failing PLAYER [--status]");
        exit(2);
    };
    let mut trial = Trial {
        player: player.clone(),
        wants_status: !options.is_empty(),
        all_right: true,
    };
    if let Err(error) = trial.all() {
        fail(format_args!("{player}: {error}"));
    }
    exit(i32::from(!trial.all_right));
}

impl Trial {
    fn all(&mut self) -> io::Result<()> {
        self.right_file()?;
        self.directory()?;
        self.stuck("nothing yet", &[])?;
        self.stuck("half a file", &half(&traffic(0, 40)))?;
        self.full_disk("full disk, short log", &traffic(0, 4))?;
        self.full_disk("full disk, long log", &looks(2000))
    }

    /// Or a player that always complains would pass.
    fn right_file(&mut self) -> io::Result<()> {
        let seen = self.fed(&traffic(0, 40), Stdio::piped())?;
        let wrong = match seen {
            Some(seen) if log_end(&seen.log) == Some("end") => None,
            Some(_) => Some("no whole log".to_string()),
            None => Some(still_runs()),
        };
        self.tell("right file", "whole log", wrong);
        Ok(())
    }

    fn directory(&mut self) -> io::Result<()> {
        let input = Stdio::from(File::open("/")?);
        let seen = finish(self.start(input, Stdio::piped())?)?;
        self.judge("directory", seen);
        Ok(())
    }

    /// The input gives these bytes; after them a read fails, since it would have
    /// to wait.
    fn stuck(&mut self, name: &str, bytes: &[u8]) -> io::Result<()> {
        let (mut here, there) = UnixStream::pair()?;
        there.set_nonblocking(true)?;
        here.write_all(bytes)?;
        let input = Stdio::from(OwnedFd::from(there));
        let seen = finish(self.start(input, Stdio::piped())?)?;
        // Held until now: closed, it would be the end of the file.
        drop(here);
        self.judge(name, seen);
        Ok(())
    }

    fn full_disk(&mut self, name: &str, traffic: &Traffic) -> io::Result<()> {
        match OpenOptions::new().write(true).open(FULL) {
            Ok(full) => {
                let seen = self.fed(traffic, Stdio::from(full))?;
                self.judge(name, seen);
            }
            Err(error) => say!("{name}: skipped, {FULL}: {error}"),
        }
        Ok(())
    }

    /// Runs the player on a right file.
    fn fed(&self, traffic: &Traffic, output: Stdio) -> io::Result<Option<Seen>> {
        let mut child = self.start(Stdio::piped(), output)?;
        let mut input = child.stdin.take().expect("a piped input");
        let bytes = traffic.encode();
        // A player may stop reading when a write fails.
        spawn(move || input.write_all(&bytes));
        finish(child)
    }

    fn start(&self, input: Stdio, output: Stdio) -> io::Result<Child> {
        let mut command = command(&self.player);
        command.stdin(input).stdout(output).stderr(Stdio::piped());
        command.spawn()
    }

    fn judge(&mut self, name: &str, seen: Option<Seen>) {
        let wrong = match seen {
            Some(seen) => wrong(&seen, self.wants_status),
            None => Some(still_runs()),
        };
        self.tell(name, "said", wrong);
    }

    fn tell(&mut self, name: &str, right: &str, wrong: Option<String>) {
        self.all_right &= wrong.is_none();
        say!("{name}: {}", wrong.as_deref().unwrap_or(right));
    }
}

/// What is wrong with how a player met a failure.
fn wrong(seen: &Seen, wants_status: bool) -> Option<String> {
    let lines: Vec<&str> = seen.said.lines().collect();
    if lines.len() != 1 || lines[0].trim().is_empty() {
        let said = &seen.said;
        return Some(format!("{} lines on standard error: {said:?}", lines.len()));
    }
    if let Some(line) = seen.log.lines().find(|l| last_word(l).is_some()) {
        return Some(format!("the log has a last line: {line}"));
    }
    (wants_status && seen.status.success()).then(|| "status 0".to_string())
}

fn still_runs() -> String {
    format!("still runs after {} s", PATIENCE.as_secs())
}

/// What the player did; nothing where it had to be stopped.
fn finish(mut child: Child) -> io::Result<Option<Seen>> {
    let log = drain(child.stdout.take());
    let said = drain(child.stderr.take());
    let Some(status) = wait(&mut child)? else {
        return Ok(None);
    };
    let text = |reader: JoinHandle<String>| reader.join().expect("a reader does not panic");
    Ok(Some(Seen {
        status,
        log: text(log),
        said: text(said),
    }))
}

/// Reads all, at the same time as the others: a full pipe would stop the player.
fn drain(from: Option<impl Read + Send + 'static>) -> JoinHandle<String> {
    spawn(move || {
        let mut bytes = Vec::new();
        if let Some(mut from) = from {
            let _ = from.read_to_end(&mut bytes);
        }
        String::from_utf8_lossy(&bytes).into_owned()
    })
}

fn wait(child: &mut Child) -> io::Result<Option<ExitStatus>> {
    let end = Instant::now() + PATIENCE;
    while Instant::now() < end {
        if let Some(status) = child.try_wait()? {
            return Ok(Some(status));
        }
        sleep(Duration::from_millis(5));
    }
    child.kill()?;
    child.wait()?;
    Ok(None)
}

/// The first half of the file, cut within a record.
fn half(traffic: &Traffic) -> Vec<u8> {
    let mut first = traffic.clone();
    first.events.truncate(traffic.events.len() / 2);
    // Every record has at least 5 bytes.
    let cut = first.encode().len() - END_BYTES + 3;
    let mut bytes = traffic.encode();
    bytes.truncate(cut);
    bytes
}

/// A short file with a long log, more than a player will buffer.
fn looks(count: usize) -> Traffic {
    let header = traffic(0, 0).header;
    let events = vec![Event::Look { store: 0, slot: 0 }; count];
    Traffic { header, events }
}
