//! From captures to traffic files and back.

mod packed;

use packed::*;
use second::capture::convert::{header, pack, Unpacker};
use second::capture::{file, lines, record, Event as Packed, Verdict};
use second::generate::captures::{capture, damaged};
use second::generate::{traffic, Random};
use second::run::own_log;
use second::settings::Window;
use second::traffic::{Event, Header, Making, Traffic};

/// The traffic file of a capture and what is said of it.
fn unpacked(bytes: &[u8]) -> (Traffic, Option<String>) {
    let mut unpacker = Unpacker::default();
    let mut made = unpacker.feed(bytes);
    let (last, wrong) = unpacker.finish();
    made.extend(last);
    (Traffic::decode(&made).expect("a right file"), wrong)
}

/// The capture of a traffic file, what is said, and whether it is whole.
fn repacked(bytes: &[u8], skip: bool) -> (Vec<u8>, Vec<String>, bool) {
    let mut made = Vec::new();
    let mut said = Vec::new();
    let whole = pack(bytes, skip, &mut made, |line| said.push(line.to_string()));
    (made, said, whole.expect("memory takes all"))
}

/// A configuration read's ignored bits apart.
fn plain(bytes: &[u8]) -> Vec<u8> {
    let (events, verdict) = file(bytes);
    let mut made: Vec<u8> = events.iter().flat_map(|e| record(e).unwrap()).collect();
    if let Verdict::End(count) = verdict {
        made.extend(second::capture::end_record(count).unwrap());
    }
    made
}

#[test]
fn a_capture_and_back() {
    for seed in 0..40 {
        let bytes = capture(seed, 300).bytes();
        let (made, wrong) = unpacked(&bytes);
        assert_eq!(wrong, None);
        let (again, said, whole) = repacked(&made.encode(), false);
        assert_eq!((said, whole), (vec![], true));
        assert_eq!(again, plain(&bytes));
        assert_eq!(lines::of(&again), lines::of(&bytes));
    }
}

/// Number by number: a take's in its look and in its release, a tick's once for its
/// run.
#[test]
fn the_log_has_the_numbers_of_the_lines() {
    for seed in 0..40 {
        let bytes = capture(seed, 300).bytes();
        let (made, _) = unpacked(&bytes);
        let log = own_log(&made.encode());
        let mut numbers = log.lines().skip(1).map(number_of);
        let text = lines::of(&bytes);
        let mut ticks = false;
        for line in text.lines().skip(1) {
            let words: Vec<&str> = line.split(' ').collect();
            let refusal = words.last().and_then(|w| w.parse().ok()).unwrap_or(0);
            match words[1] {
                "tick" if ticks => continue,
                "tick" => assert_eq!(numbers.next(), Some(0), "{line}"),
                "take" => {
                    assert_eq!(numbers.next(), Some(refusal), "{line}");
                    assert_eq!(numbers.next(), Some(refusal), "{line}");
                }
                _ if words[0] == "end" => break,
                _ => assert_eq!(numbers.next(), Some(refusal), "{line}"),
            }
            ticks = words[1] == "tick";
        }
        let last = numbers.count();
        assert_eq!(last, 1, "the end");
    }
}

fn number_of(line: &str) -> u32 {
    line.split(' ')
        .nth(2)
        .and_then(|w| w.parse().ok())
        .unwrap_or(0)
}

/// The traffic file has the events before the fault, and its own right end.
#[test]
fn damaged_captures() {
    for seed in 0..200 {
        let bytes = damaged(seed, 30);
        let (events, verdict) = file(&bytes);
        let (made, wrong) = unpacked(&bytes);
        let expected = match verdict {
            Verdict::End(_) => None,
            verdict => Some(lines::last(verdict)),
        };
        assert_eq!(wrong, expected);
        let (again, _, whole) = repacked(&made.encode(), false);
        assert!(whole);
        assert_eq!(
            file(&again),
            (events.clone(), Verdict::End(events.len() as u64))
        );
    }
}

/// Blocks of any size give the same traffic file.
#[test]
fn any_cutting() {
    let bytes = capture(5, 100).bytes();
    let (expected, _) = unpacked(&bytes);
    for size in [1, 3, 7, 1000] {
        let mut unpacker = Unpacker::default();
        let mut made: Vec<u8> = Vec::new();
        for block in bytes.chunks(size) {
            made.extend(unpacker.feed(block));
        }
        made.extend(unpacker.finish().0);
        assert_eq!(made, expected.encode());
    }
}

/// 131,072 ticks and three more, in two records, and back.
#[test]
fn runs_of_ticks() {
    let mut bytes = hex("600000").repeat(131_075);
    bytes.extend(hex("50000180 600000 000004 00020005"));
    let (made, wrong) = unpacked(&bytes);
    assert_eq!(wrong, None);
    let store = 32_768;
    let tick = |repeat| Event::Tick { store, repeat };
    let link = Event::Link { store, up: true };
    assert_eq!(made.events, [tick(131_072), tick(3), link, tick(1)]);
    assert_eq!(repacked(&made.encode(), false).0, bytes);
}

/// A traffic file holds so many ticks and no more: here five.
#[test]
fn too_many_ticks() {
    let mut unpacker = Unpacker::with_ticks(5);
    let mut made = unpacker.feed(&hex("600000").repeat(5));
    assert!(unpacker.reads_on());
    made.extend(unpacker.feed(&hex("50000180 600000 50000100")));
    assert!(!unpacker.reads_on());
    let (last, wrong) = unpacker.finish();
    made.extend(last);
    let said = "event 7 of the capture: more ticks than a traffic file may have";
    assert_eq!(wrong.as_deref(), Some(said));
    let store = 32_768;
    let events = vec![
        Event::Tick { store, repeat: 5 },
        Event::Link { store, up: true },
    ];
    assert_eq!(made, with(events));
}

fn with(events: Vec<Event>) -> Vec<u8> {
    let header = header();
    Traffic { header, events }.encode()
}

/// A release alone is a take; a look right before it belongs to it; another look
/// has no record.
#[test]
fn looks_and_releases() {
    let store = 32_768;
    let look = |slot| Event::Look { store, slot };
    let release = |slot| Event::Release { store, slot };
    let take = |slot| Packed::Take { slot };
    let short = Event::Look { store: 0, slot: 1 };
    let lone = "a look without a release of the same slot right after it";
    let cases = [
        (vec![release(1)], vec![take(1)], None),
        (vec![look(1), release(1)], vec![take(1)], None),
        (vec![look(1), release(2)], vec![take(2)], Some((0, lone))),
        (vec![release(1), look(1)], vec![take(1)], Some((1, lone))),
        (
            vec![look(1), look(1), release(1)],
            vec![take(1)],
            Some((0, lone)),
        ),
        (
            vec![short, release(1)],
            vec![take(1)],
            Some((0, "a store of 0 bytes, a capture lends 32768")),
        ),
    ];
    for (events, expected, lost) in cases {
        let bytes = with(events);
        let (made, said, whole) = repacked(&bytes, true);
        assert!(whole);
        let count = expected.len() as u64;
        assert_eq!(file(&made), (expected, Verdict::End(count)));
        let (part, stopped, whole) = repacked(&bytes, false);
        match lost {
            None => assert!(said.is_empty() && stopped.is_empty() && whole),
            Some((index, why)) => {
                assert_eq!(said, [format!("event {index} left out: {why}")]);
                assert_eq!(stopped, [format!("event {index}: {why}")]);
                assert!(!whole);
                assert_eq!(file(&part).1, Verdict::Cut(index));
            }
        }
    }
}

/// Each thing that a capture cannot hold is named, and nothing else is.
#[test]
fn what_cannot_be_held_is_named() {
    let area = 4608;
    let store = 32_768;
    let access = |offset, write, strobes| second::bridge::Access {
        offset,
        write,
        data: 0,
        strobes,
    };
    let config = |offset, write, strobes| Event::Config {
        access: access(offset, write, strobes),
        area,
    };
    let read = |z, beats, kind| Event::Read {
        burst: burst(0, z, beats, kind),
        area,
    };
    let completion = |count| Event::Completion {
        store,
        bytes: vec![0; count],
    };
    let cases = [
        (read(8, 1, 1), "size code 8, at most 7"),
        (read(0, 0, 1), "beats 0, at least 1"),
        (read(0, 257, 1), "beats 257, at most 256"),
        (read(0, 1, 4), "burst type 4, at most 3"),
        (
            config(1 << 28, false, 0),
            "offset 268435456, at most 268435455",
        ),
        (config(0, true, 16), "strobes 16, at most 15"),
        (completion(11), "a completion of 11 bytes, at least 12"),
        (completion(4113), "a completion of 4113 bytes, at most 4112"),
        (Event::Release { store, slot: 16 }, "slot 16, at most 15"),
        (
            Event::Message { bytes: vec![] },
            "no kind of record for a message",
        ),
        (
            Event::RequestReader { bytes: vec![] },
            "no kind of record for a call on headers",
        ),
        (
            Event::Tick {
                store: 32_767,
                repeat: 1,
            },
            "a store of 32767 bytes, a capture lends 32768",
        ),
        (
            Event::Read {
                burst: burst(0, 0, 1, 1),
                area: 4607,
            },
            "an area of 4607 bytes, a capture lends 4608",
        ),
        (
            Event::Write {
                burst: burst(0, 0, 1, 1),
                area,
                data: vec![0; 4103],
            },
            "data of 4103 bytes, at most 4102",
        ),
    ];
    for (event, why) in cases {
        let bytes = with(vec![Event::Link { store, up: true }, event]);
        let (_, said, _) = repacked(&bytes, false);
        assert_eq!(said, [format!("event 1: {why}")]);
        let (made, said, whole) = repacked(&bytes, true);
        assert_eq!(said, [format!("event 1 left out: {why}")]);
        assert!(whole);
        assert_eq!(lines::of(&made), "capture\n1 link up\nend 1 of 1\n");
    }
    // Strobes of a read are ignored in both formats, longer lent parts are enough.
    let held = with(vec![config(0, false, 16), Event::Tick { store, repeat: 2 }]);
    assert_eq!(repacked(&held, false).1, Vec::<String>::new());
}

/// Settings and first values are named too; how the bridge is made is not.
#[test]
fn headers() {
    let said = |change: &dyn Fn(&mut Header)| {
        let mut header = header();
        change(&mut header);
        let events = vec![];
        let bytes = Traffic { header, events }.encode();
        let (made, said, whole) = repacked(&bytes, true);
        assert!(whole);
        assert_eq!(lines::of(&made), "capture\nend 0 of 0\n");
        let (_, first, whole) = repacked(&bytes, false);
        assert_eq!(first.len(), usize::from(!whole));
        said
    };
    let other = "header left out: other settings than those a capture is played with";
    let none: [&str; 0] = [];
    assert_eq!(said(&|_| {}), none);
    assert_eq!(said(&|h| h.settings.windows[3].base = 5), none);
    assert_eq!(said(&|h| h.store = 40_960), none);
    assert_eq!(said(&|h| h.making = Making::List(Window::default())), none);
    assert_eq!(said(&|h| h.settings.time_limit = 2), [other]);
    assert_eq!(said(&|h| h.settings.requester = 2), [other]);
    assert_eq!(said(&|h| h.settings.read_limit = 256), [other]);
    assert_eq!(said(&|h| h.settings.write_limit = 256), [other]);
    assert_eq!(said(&|h| h.settings.bus_bits = 7), [other]);
    assert_eq!(said(&|h| h.settings.count = 2), [other]);
    assert_eq!(said(&|h| h.settings.count = 0), [other]);
    assert_eq!(said(&|h| h.settings.windows[0].target = 0), [other]);
    let tick = "header left out: first tick value 9, a capture begins at 0";
    assert_eq!(said(&|h| h.counter = 9), [tick]);
    let session = "header left out: first session value 7, a capture begins at 0";
    let making = Making::ListAndSession(Window::default(), 7);
    assert_eq!(said(&|h| h.making = making), [session]);
}

/// Any traffic, faulty too: with --skip what is left out and what is kept add up.
#[test]
fn any_traffic() {
    let mut random = Random::new(11);
    for seed in 0..30 {
        let made = traffic(seed, 200);
        let bytes = made.encode();
        let (capture, said, whole) = repacked(&bytes, true);
        assert!(whole);
        let looks = made.events.windows(2).filter(|pair| match pair {
            [Event::Look { store: a, slot }, Event::Release { store: b, slot: c }] => {
                slot == c && *a.min(b) >= 32_768
            }
            _ => false,
        });
        let ticks = made.events.iter().map(|event| match event {
            Event::Tick { store, repeat } if *store >= 32_768 => *repeat as usize - 1,
            _ => 0,
        });
        let lost = said.iter().filter(|line| line.starts_with("event")).count();
        let kept = made.events.len() - lost - looks.count() + ticks.sum::<usize>();
        assert_eq!(file(&capture).1, Verdict::End(kept as u64));
        let cut = random.between(0, bytes.len() as u32 - 1) as usize;
        let (part, said, whole) = repacked(&bytes[..cut], true);
        assert!(!whole);
        assert!(said
            .last()
            .unwrap()
            .starts_with("the traffic file ends early: cut "));
        assert!(matches!(file(&part).1, Verdict::Cut(_)));
        assert!(capture.starts_with(&part));
    }
}
