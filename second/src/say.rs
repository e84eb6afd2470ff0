//! Standard input and output whose failures are told (docs/TRAFFIC.md, "Input
//! and output that fail"). Not told is a descriptor that was closed at the start:
//! std has opened /dev/null in its place before `main`.

use std::fmt::{Arguments, Display};
use std::fs::File;
use std::io::{self, Write};
use std::os::fd::AsFd;
use std::process::exit;

/// The status of a program that could not do its work.
pub const TROUBLE: i32 = 2;

/// Ends the program with one line on standard error. Nothing that is still
/// buffered is written: no line may follow a failure.
pub fn fail(what: impl Display) -> ! {
    // Where standard error fails too, the status still tells.
    let _ = writeln!(io::stderr(), "error: {what}");
    exit(TROUBLE)
}

/// Standard input. std's own takes a descriptor that cannot be read for an
/// empty file; as a file it fails.
pub fn input() -> io::Result<File> {
    Ok(io::stdin().as_fd().try_clone_to_owned()?.into())
}

/// Standard output. std's own takes every byte where the descriptor cannot be
/// written, and ignores a failure to write its last bytes; as a file it fails.
pub fn output() -> io::Result<File> {
    Ok(io::stdout().as_fd().try_clone_to_owned()?.into())
}

/// Writes all of it on standard output, or fails.
pub fn write(bytes: &[u8]) {
    let written = output().and_then(|mut out| out.write_all(bytes));
    written.unwrap_or_else(|error| fail(format_args!("standard output: {error}")));
}

/// What `say!` prints.
pub fn line(text: Arguments) {
    write(format!("{text}\n").as_bytes());
}

/// `println!`, but a failure is a plain line and a status.
#[macro_export]
macro_rules! say {
    ($($text:tt)*) => {
        $crate::say::line(format_args!($($text)*))
    };
}
