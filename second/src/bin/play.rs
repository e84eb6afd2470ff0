//! Reads a traffic file on standard input and prints its log.
use second::say::{fail, input, output};
use std::io::{self, BufWriter, Read, Write};

fn main() {
    let bytes = read().unwrap_or_else(|error| fail(format_args!("standard input: {error}")));
    print(&bytes).unwrap_or_else(|error| fail(format_args!("standard output: {error}")));
}

fn read() -> io::Result<Vec<u8>> {
    let mut bytes = Vec::new();
    input()?.read_to_end(&mut bytes)?;
    Ok(bytes)
}

fn print(bytes: &[u8]) -> io::Result<()> {
    let mut out = BufWriter::new(output()?);
    let result = second::traffic::play(bytes, &mut out).and_then(|()| out.flush());
    // What did not get out stays in: dropped as a writer it would try again.
    let _ = out.into_parts();
    result
}
