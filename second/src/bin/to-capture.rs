//! `to-capture [--skip] < TRAFFIC_FILE > CAPTURE` packs a traffic file. It names on
//! standard error what a capture cannot hold and stops at the first such thing
//! without a whole capture, or, with --skip, leaves all of them out. Exit status: 0
//! a whole capture, 1 not, 2 trouble.
use second::capture::convert::pack;
use second::say::{fail, input, output};
use std::io::{self, BufWriter, Read, Write};
use std::process::exit;

fn main() {
    let arguments: Vec<String> = std::env::args().skip(1).collect();
    let skip = match arguments.iter().map(String::as_str).collect::<Vec<_>>()[..] {
        [] => false,
        ["--skip"] => true,
        _ => {
            eprintln!("usage: to-capture [--skip] < TRAFFIC_FILE > CAPTURE");
            exit(2);
        }
    };
    let bytes = read().unwrap_or_else(|error| fail(format_args!("standard input: {error}")));
    let whole =
        write(&bytes, skip).unwrap_or_else(|error| fail(format_args!("standard output: {error}")));
    exit(i32::from(!whole));
}

fn read() -> io::Result<Vec<u8>> {
    let mut bytes = Vec::new();
    input()?.read_to_end(&mut bytes)?;
    Ok(bytes)
}

fn write(bytes: &[u8], skip: bool) -> io::Result<bool> {
    let mut out = BufWriter::new(output()?);
    let tell = |line: &str| {
        let _ = writeln!(io::stderr(), "{line}");
    };
    let result = pack(bytes, skip, &mut out, tell);
    let result = result.and_then(|whole| out.flush().map(|()| whole));
    // What did not get out stays in: dropped as a writer it would try again.
    let _ = out.into_parts();
    result
}
