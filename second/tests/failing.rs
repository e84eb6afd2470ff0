//! Input and output that fail, and players whose logs are not whole.

use second::run::{log_of, trouble};
use std::fs::{File, OpenOptions};
use std::os::unix::process::ExitStatusExt;
use std::process::{Command, ExitStatus, Output, Stdio};

const PLAY: &str = env!("CARGO_BIN_EXE_play");
const GENERATE: &str = env!("CARGO_BIN_EXE_generate");
const COMPARE: &str = env!("CARGO_BIN_EXE_compare");
const FAILING: &str = env!("CARGO_BIN_EXE_failing");

fn run(program: &str, arguments: &[&str], input: Stdio, output: Stdio) -> Output {
    let mut command = Command::new(program);
    command.args(arguments).stdin(input).stdout(output);
    let child = command.stderr(Stdio::piped()).spawn();
    child.and_then(|c| c.wait_with_output()).expect("it runs")
}

fn for_writing(path: &str) -> Stdio {
    let file = OpenOptions::new().write(true).open(path);
    Stdio::from(file.expect("a file that can be written"))
}

/// One plain line on standard error, the status of trouble, and no log.
fn told(output: Output, what: &str) {
    let said = String::from_utf8_lossy(&output.stderr);
    assert!(said.starts_with(&format!("error: {what}: ")), "{said}");
    assert_eq!(said.lines().count(), 1, "{said}");
    assert_eq!(output.status.code(), Some(2));
    assert!(output.stdout.is_empty());
}

#[test]
fn the_player_says_that_input_or_output_failed() {
    let output = run(FAILING, &[PLAY, "--status"], Stdio::null(), Stdio::piped());
    let text = String::from_utf8_lossy(&output.stdout);
    assert!(output.status.success(), "{text}");
    assert_eq!(text.lines().count(), 6);
    assert_eq!(text.matches(": said\n").count(), 5);
}

#[test]
fn a_player_that_does_not_say_so_is_found() {
    let player = format!("{GENERATE} 0 1");
    let output = run(FAILING, &[&player], Stdio::null(), Stdio::piped());
    let text = String::from_utf8_lossy(&output.stdout);
    assert_eq!(output.status.code(), Some(1), "{text}");
    assert!(text.starts_with("right file: no whole log\n"), "{text}");
    assert!(text.contains("directory: 0 lines on standard error"));
}

/// std's own input and output do not tell these two.
#[test]
fn descriptors_of_the_wrong_direction_are_failures() {
    let unreadable = for_writing("/dev/null");
    told(run(PLAY, &[], unreadable, Stdio::piped()), "standard input");
    let unwritable = Stdio::from(File::open("/dev/null").expect("a file"));
    let empty = Stdio::null();
    told(run(PLAY, &[], empty, unwritable), "standard output");
}

#[test]
fn every_program_tells_a_full_disk() {
    let file = format!("{}/short.traffic", env!("CARGO_TARGET_TMPDIR"));
    let made = File::create(&file).expect("a new file");
    let short = ["0", "1"];
    let output = run(GENERATE, &short, Stdio::null(), made.into());
    assert!(output.status.success());
    let cases: [(&str, &[&str]); 6] = [
        (GENERATE, &["0", "1"]),
        (COMPARE, &[PLAY, "0", "0", "1"]),
        (env!("CARGO_BIN_EXE_shrink"), &[PLAY, PLAY, &file]),
        (env!("CARGO_BIN_EXE_cover"), &["0", "0"]),
        (env!("CARGO_BIN_EXE_demand3"), &["0", "0"]),
        (FAILING, &[PLAY]),
    ];
    for (program, arguments) in cases {
        let full = for_writing("/dev/full");
        let output = run(program, arguments, Stdio::null(), full);
        told(output, "standard output");
    }
}

#[test]
fn a_log_that_is_not_whole_is_not_compared() {
    let player = format!("{GENERATE} 0 1");
    let arguments = [&player[..], "0", "0"];
    let output = run(COMPARE, &arguments, Stdio::null(), Stdio::piped());
    told(output, &format!("{player}: seed-0"));
    assert!(log_of(&player, &[]).is_err());
    assert!(log_of("a/player/that/is/not/there", &[]).is_err());
    assert_eq!(log_of(PLAY, &[]), Ok("cut header at 0\n".to_string()));
}

#[test]
fn the_status_and_the_last_line_decide() {
    let exit = |code: i32| ExitStatus::from_raw(code << 8);
    let killed = ExitStatus::from_raw(9);
    let whole = ["new 0\nend 0\n", "cut header at 0\n", "damaged end at 9\n"];
    for log in whole {
        assert_eq!(trouble(exit(0), log), None);
        assert!(trouble(killed, log).is_some());
    }
    assert!(trouble(exit(1), whole[0]).is_some());
    // The format leaves the status after a fault to the player.
    assert_eq!(trouble(exit(1), whole[1]), None);
    assert_eq!(trouble(exit(1), whole[2]), None);
    for log in ["", "\n", "new 0\n", "new 0\nend 0", "end 0\n\n", "ended\n"] {
        assert!(trouble(exit(0), log).is_some(), "{log:?}");
    }
}
