//! The programs for captures: input and output, also where they fail, statuses.

mod packed;

use packed::*;
use second::generate::captures::{capture, damaged};
use second::generate::traffic;
use std::fs::{File, OpenOptions};
use std::io::{Read, Write};
use std::process::{Command, Output, Stdio};

const PLAY: &str = env!("CARGO_BIN_EXE_play-capture");
const GENERATE: &str = env!("CARGO_BIN_EXE_generate-capture");
const TO: &str = env!("CARGO_BIN_EXE_to-capture");
const FROM: &str = env!("CARGO_BIN_EXE_from-capture");
const COMPARE: &str = env!("CARGO_BIN_EXE_compare");
const COVER: &str = env!("CARGO_BIN_EXE_cover");

fn run(program: &str, arguments: &[&str], input: Stdio, output: Stdio) -> Output {
    let mut command = Command::new(program);
    command.args(arguments).stdin(input).stdout(output);
    command.current_dir(std::env::temp_dir());
    let child = command.stderr(Stdio::piped()).spawn();
    child.and_then(|c| c.wait_with_output()).expect("it runs")
}

fn fed(program: &str, arguments: &[&str], bytes: &[u8]) -> Output {
    let mut command = Command::new(program);
    command.args(arguments).stdin(Stdio::piped());
    command.stdout(Stdio::piped()).stderr(Stdio::piped());
    let mut child = command.spawn().expect("it runs");
    let mut input = child.stdin.take().unwrap();
    let bytes = bytes.to_vec();
    let feeder = std::thread::spawn(move || {
        let _ = input.write_all(&bytes);
    });
    let output = child.wait_with_output().expect("it ends");
    feeder.join().unwrap();
    output
}

fn text(bytes: &[u8]) -> String {
    String::from_utf8(bytes.to_vec()).expect("ASCII")
}

#[test]
fn the_player_prints_the_lines() {
    for seed in 0..6 {
        for bytes in [capture(seed, 200).bytes(), damaged(seed, 200)] {
            let output = fed(PLAY, &[], &bytes);
            assert_eq!(text(&output.stdout), second::capture::lines::of(&bytes));
            assert_eq!(output.status.code(), Some(0));
            assert!(output.stderr.is_empty());
        }
    }
}

/// It does not wait for bytes behind the end, or behind a fault.
#[test]
fn the_player_stops_at_the_end() {
    for bytes in ["50000180 00000400000001", "50000180 80"] {
        let mut command = Command::new(PLAY);
        command.stdin(Stdio::piped()).stdout(Stdio::piped());
        let mut child = command.spawn().expect("it runs");
        let mut input = child.stdin.take().unwrap();
        for byte in hex(bytes) {
            input.write_all(&[byte]).unwrap();
        }
        let mut shown = String::new();
        let mut output = child.stdout.take().unwrap();
        output.read_to_string(&mut shown).unwrap();
        assert!(child.wait().unwrap().success());
        assert_eq!(shown.lines().count(), 3);
        drop(input);
    }
}

/// A read that fails is the end of the input, and told.
#[test]
fn input_that_fails() {
    let write_only = OpenOptions::new().write(true).open("/dev/null");
    for file in [File::open("/"), write_only] {
        let input = Stdio::from(file.expect("it opens"));
        let output = run(PLAY, &[], input, Stdio::piped());
        assert_eq!(text(&output.stdout), "capture\ncut after 0\n");
        let said = text(&output.stderr);
        assert!(said.starts_with("standard input: "), "{said}");
        assert_eq!(said.lines().count(), 1);
        assert_eq!(output.status.code(), Some(2));
    }
    for program in [TO, FROM] {
        let input = Stdio::from(File::open("/").expect("it opens"));
        told(run(program, &[], input, Stdio::piped()), "standard input");
    }
}

fn told(output: Output, what: &str) {
    let said = text(&output.stderr);
    assert!(said.starts_with(&format!("error: {what}: ")), "{said}");
    assert_eq!(said.lines().count(), 1, "{said}");
    assert_eq!(output.status.code(), Some(2));
}

#[test]
fn output_that_fails() {
    let full = || {
        let file = OpenOptions::new().write(true).open("/dev/full");
        Stdio::from(file.expect("it opens"))
    };
    let empty = Stdio::null;
    told(run(PLAY, &[], empty(), full()), "standard output");
    told(run(GENERATE, &["0"], empty(), full()), "standard output");
    let long = ["long", "0", "100000"];
    told(run(GENERATE, &long, empty(), full()), "standard output");
    told(run(FROM, &[], empty(), full()), "standard output");
    let cover = ["--captures", "0", "0"];
    told(run(COVER, &cover, empty(), full()), "standard output");
    let compare = ["--captures", PLAY, "0", "0", "5"];
    told(run(COMPARE, &compare, empty(), full()), "standard output");
}

#[test]
fn wrong_arguments() {
    let list: [(&str, &[&str]); 9] = [
        (GENERATE, &[]),
        (GENERATE, &["x"]),
        (GENERATE, &["1", "2", "broken"]),
        (GENERATE, &["long", "1"]),
        (TO, &["--all"]),
        (FROM, &["x"]),
        (COMPARE, &["--captures", PLAY, "0"]),
        (COVER, &["--captures", "3"]),
        (COVER, &["--captures", "3", "2"]),
    ];
    for (program, arguments) in list {
        let output = run(program, arguments, Stdio::null(), Stdio::piped());
        assert_eq!(output.status.code(), Some(2), "{arguments:?}");
        assert!(text(&output.stderr).starts_with("usage: "), "{arguments:?}");
        assert!(output.stdout.is_empty());
    }
}

#[test]
fn generated_files() {
    let output = run(GENERATE, &["3"], Stdio::null(), Stdio::piped());
    assert_eq!(output.stdout, capture(3, 400).bytes());
    let output = run(GENERATE, &["3", "50"], Stdio::null(), Stdio::piped());
    assert_eq!(output.stdout, capture(3, 50).bytes());
    let arguments = ["3", "50", "damaged"];
    let output = run(GENERATE, &arguments, Stdio::null(), Stdio::piped());
    assert_eq!(output.stdout, damaged(3, 50));
    let long = ["long", "3", "50000"];
    let output = run(GENERATE, &long, Stdio::null(), Stdio::piped());
    let shown = fed(PLAY, &[], &output.stdout);
    assert!(text(&shown.stdout)
        .lines()
        .last()
        .unwrap()
        .starts_with("end "));
}

#[test]
fn conversions_and_their_statuses() {
    let bytes = capture(1, 100).bytes();
    let made = fed(FROM, &[], &bytes);
    assert_eq!((made.status.code(), made.stderr.len()), (Some(0), 0));
    let again = fed(TO, &[], &made.stdout);
    assert_eq!((again.status.code(), again.stderr.len()), (Some(0), 0));
    let lines = |bytes: &[u8]| text(&fed(PLAY, &[], bytes).stdout);
    assert_eq!(lines(&again.stdout), lines(&bytes));
    let cut = fed(FROM, &[], &hex("50000180 600000 51"));
    assert_eq!(cut.status.code(), Some(1));
    assert_eq!(text(&cut.stderr), "cut after 2\n");
    let back = fed(TO, &[], &cut.stdout);
    assert_eq!(back.stdout, hex("50000180 600000 00000400000002"));
    let other = traffic(0, 100).encode();
    let stopped = fed(TO, &[], &other);
    assert_eq!(stopped.status.code(), Some(1));
    assert_eq!(text(&stopped.stderr).lines().count(), 1);
    let skipped = fed(TO, &["--skip"], &other);
    assert_eq!(skipped.status.code(), Some(0));
    assert!(text(&skipped.stderr).lines().count() > 1);
    assert!(lines(&skipped.stdout)
        .lines()
        .last()
        .unwrap()
        .starts_with("end "));
    let broken = fed(TO, &["--skip"], &other[..300]);
    assert_eq!(broken.status.code(), Some(1));
}

#[test]
fn comparing() {
    let right = ["--captures", PLAY, "0", "9", "60"];
    let output = run(COMPARE, &right, Stdio::null(), Stdio::piped());
    let said = text(&output.stdout);
    assert_eq!(output.status.code(), Some(0), "{said}");
    assert!(said.ends_with(" lines, 0 differences\n"), "{said}");
    assert_eq!(said.lines().count(), 1);
    // Prints the same for every file.
    let wrong = r"printf capture\ncut\x20after\x200\n";
    let arguments = ["--captures", wrong, "0", "0", "3"];
    let output = run(COMPARE, &arguments, Stdio::null(), Stdio::piped());
    let said = text(&output.stdout);
    assert_eq!(output.status.code(), Some(1), "{said}");
    let kept = "seed-0.capture";
    let end = format!("  there: cut after 0\nkept as {kept}\n");
    assert!(
        said.starts_with("seed-0 differs at line 2\n  here:  1 "),
        "{said}"
    );
    assert!(said.ends_with(&end), "{said}");
    let path = std::env::temp_dir().join(kept);
    assert_eq!(std::fs::read(&path).unwrap(), capture(0, 3).bytes());
    std::fs::remove_file(path).unwrap();
    // No last line.
    for silent in ["true", "printf capture\\n", "printf end\\x200\\x20of\\x200"] {
        let arguments = ["--captures", silent, "0", "0", "3"];
        let output = run(COMPARE, &arguments, Stdio::null(), Stdio::piped());
        assert_eq!(output.status.code(), Some(2), "{silent}");
    }
}
