//! The requests of a burst mark each of its bytes once and no other, whatever
//! the limit: checked byte by byte from what is sent.

mod common;

use common::*;
use second::header::{read_request, Request, Target};

const PAGE: u64 = 0x1234_3000;
const TARGET: u64 = 0x5671_3000;

/// The addresses that a request's enables mark.
fn marked(request: &Request) -> Vec<u64> {
    let Target::Memory(address) = request.target else {
        panic!("no memory request");
    };
    let enables = |word: u32| match word {
        0 => request.first,
        _ if word == request.length - 1 => request.last,
        _ => 15,
    };
    (0..4 * request.length)
        .filter(|i| enables(i / 4) >> (i % 4) & 1 == 1)
        .map(|i| address.0 + u64::from(i))
        .collect()
}

/// The requests in what was sent, each with the bytes that follow it.
fn packets(mut sent: &[u8], write: bool) -> Vec<(Request, Vec<u8>)> {
    let mut list = Vec::new();
    while !sent.is_empty() {
        let request = read_request(&sent[..12]).expect("a request");
        let words = if write { request.length as usize } else { 0 };
        let end = 12 + 4 * words;
        list.push((request, sent[12..end].to_vec()));
        sent = &sent[end..];
    }
    list
}

fn check(place: u64, size: u32, beats: u32, read_limit: u32, write_limit: u32) {
    let mut b = Bench::up_with(|s| {
        s.read_limit = read_limit;
        s.write_limit = write_limit;
    });
    let Some(length) = burst(PAGE + place, size, beats).length() else {
        return;
    };
    let wanted: Vec<u64> = (0..u64::from(length)).map(|i| TARGET + place + i).collect();
    let got = b.read(PAGE + place, size, beats);
    let list = packets(b.sent(got), false);
    let all: Vec<u64> = list.iter().flat_map(|(r, _)| marked(r)).collect();
    assert_eq!(all, wanted);
    one_stretch_each(&list, read_limit);

    let data = run_of(1, length as usize);
    let got = b.write(PAGE + place, size, beats, &data);
    let list = packets(b.sent(got), true);
    one_stretch_each(&list, write_limit);
    let mut next = 0;
    for (request, bytes) in &list {
        let Target::Memory(address) = request.target else {
            panic!("no memory request");
        };
        let here = marked(request);
        for (index, byte) in bytes.iter().enumerate() {
            if here.contains(&(address.0 + index as u64)) {
                assert_eq!(address.0 + index as u64, wanted[next]);
                assert_eq!(*byte, data[next]);
                next += 1;
            } else {
                assert_eq!(*byte, 0);
            }
        }
    }
    assert_eq!(next, data.len());
}

/// No request crosses a multiple of the limit, and each but the last ends there.
fn one_stretch_each(list: &[(Request, Vec<u8>)], limit: u32) {
    let limit = u64::from(limit);
    for (index, (request, _)) in list.iter().enumerate() {
        let here = marked(request);
        let (first, last) = (here[0], here[here.len() - 1]);
        assert_eq!(first / limit, last / limit);
        assert!(index + 1 == list.len() || (last + 1) % limit == 0);
    }
}

#[test]
fn every_size_around_every_boundary() {
    let places = (0..9).chain(120..137).chain(1020..1030).chain(4080..4096);
    for place in places {
        for size in 0..=5 {
            for beats in [1, 2, 3, 5, 16, 33, 128, 256] {
                check(place, size, beats, 128, 128);
                check(place, size, beats, 1024, 512);
                check(place, size, beats, 4096, 1024);
            }
        }
    }
}
