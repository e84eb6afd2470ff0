//! `from-capture < CAPTURE > TRAFFIC_FILE` unpacks a capture. Of one that is cut or
//! bad the traffic file has the events before the fault, which is named on standard
//! error. Exit status: 0 a whole capture, 1 not, 2 trouble.
use second::capture::convert::Unpacker;
use second::say::{fail, input, output};
use std::fs::File;
use std::io::{self, ErrorKind, Read, Write};
use std::process::exit;

const BLOCK: usize = 65_536;

fn main() {
    if std::env::args().count() > 1 {
        eprintln!("usage: from-capture < CAPTURE > TRAFFIC_FILE");
        exit(2);
    }
    let reading = |error: io::Error| -> ! { fail(format_args!("standard input: {error}")) };
    let writing = |error: io::Error| -> ! { fail(format_args!("standard output: {error}")) };
    let mut file = input().unwrap_or_else(|error| reading(error));
    let mut out = output().unwrap_or_else(|error| writing(error));
    let mut unpacker = Unpacker::default();
    let mut block = vec![0; BLOCK];
    while unpacker.reads_on() {
        let length = read(&mut file, &mut block).unwrap_or_else(|error| reading(error));
        if length == 0 {
            break;
        }
        let bytes = unpacker.feed(&block[..length]);
        out.write_all(&bytes).unwrap_or_else(|error| writing(error));
    }
    let (bytes, wrong) = unpacker.finish();
    out.write_all(&bytes).unwrap_or_else(|error| writing(error));
    if let Some(wrong) = wrong {
        let _ = writeln!(io::stderr(), "{wrong}");
        exit(1);
    }
}

fn read(file: &mut File, block: &mut [u8]) -> io::Result<usize> {
    loop {
        match file.read(block) {
            Err(error) if error.kind() == ErrorKind::Interrupted => {}
            result => return result,
        }
    }
}
