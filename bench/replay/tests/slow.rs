//! Event by event against the slow model: captures with the whiteboard
//! settings, and direct calls with any settings and any lent lengths.

mod common;

use common::*;
use replay::plain::capture::{play, Reader, Verdict, ROW};
use replay::plain::Bridge;
use replay::write;
use second::generate::traffic;
use second::traffic::{Event, Machine, Outcome};

/// How often something was seen.
#[derive(Default, Debug)]
struct Seen {
    events: usize,
    names: [usize; 8],
    numbers: [usize; 16],
    sent_bytes: usize,
    looked_bytes: usize,
    late_sessions: usize,
}

impl Seen {
    fn note(&mut self, row: &[u64; ROW]) {
        self.events += 1;
        self.names[row[0] as usize] += 1;
        self.numbers[row[1] as usize] += 1;
        self.sent_bytes += row[4] as usize;
    }
}

/// One capture, an event a call; after each, all that can be seen.
fn follow(seed: u64, list: &[Event], seen: &mut Seen) {
    let mut slow = Machine::new(&whiteboard());
    let mut bridge = Bridge::default();
    let mut reader = Reader::default();
    let mut store = slow.store.clone();
    let mut area = slow.area[..AREA].to_vec();
    for (index, event) in list.iter().enumerate() {
        let event = with_full_areas(event);
        let place = format!("seed {seed}, event {index}, {event:?}");
        if let Event::Release { slot, .. } = event {
            let (number, part) = slow.bridge.look(slot, &slow.store);
            let found = bridge.look(slot, &store);
            assert_eq!(found, (number, part), "{place}");
            seen.looked_bytes += part.len();
        }
        let Outcome::Call(answer_of_slow) = slow.play(&event) else {
            panic!("{place}: no call");
        };
        let bytes = record(&event);
        let mut row = [7; ROW];
        let input = [&bytes[..], &[0x60, 0, 0]].concat();
        let result = play(
            &mut bridge,
            &mut reader,
            &mut store,
            &mut area,
            &mut row,
            &input,
            1,
        );
        assert_eq!(
            (result.played, result.consumed),
            (1, bytes.len()),
            "{place}"
        );
        assert_eq!(row, answer(&answer_of_slow).row(name(&event)), "{place}");
        assert_eq!(area, slow.area[..AREA], "{place}");
        assert_eq!(store, slow.store, "{place}");
        assert!(same_registers(&bridge, &slow), "{place}");
        seen.note(&row);
        let taken = matches!(event, Event::Release { .. }) && row[1] == 0;
        seen.late_sessions += usize::from(taken && row[6] != u64::from(slow.bridge.session()));
    }
    let mut end = Vec::new();
    write::end(&mut end, list.len() as u32);
    let mut row = [0; ROW];
    let rows = &mut row;
    play(
        &mut bridge,
        &mut reader,
        &mut store,
        &mut area,
        rows,
        &end,
        1,
    );
    assert_eq!(reader.verdict(), Verdict::End(list.len() as u64));
}

#[test]
fn captures_of_the_whiteboard() {
    let mut seen = Seen::default();
    for seed in 0..600 {
        // Most runs of ticks are cut, so that the store is not compared after
        // each of 65,535 of them; one seed in 60 has them whole.
        let ticks = if seed % 60 == 0 { u32::MAX } else { 40 };
        let list = events(seed, 1200, ticks);
        follow(seed, &list, &mut seen);
    }
    println!("{seen:?}");
    assert!(seen.events > 400_000);
    assert!(
        seen.names.iter().all(|count| *count > 1000),
        "{seen:?}"
    );
    // All that a capture can get.
    for number in [0, 2, 3, 4, 5, 6, 7, 10, 11, 12, 13, 14, 15] {
        assert!(seen.numbers[number] > 100, "{number}: {seen:?}");
    }
    assert!(seen.late_sessions > 100);
}

/// Every event of the generator but header calls, with its settings.
#[test]
fn calls_with_any_settings() {
    let mut seen = Seen::default();
    for seed in 10_000..10_600 {
        let file = traffic(seed, 600);
        let mut slow = Machine::new(&file.header);
        let mut bridge = Bridge::new(plain_settings(slow.bridge.settings()));
        bridge.start_at(slow.bridge.counter(), slow.bridge.session());
        let mut store = slow.store.clone();
        let mut area = slow.area.clone();
        for (index, event) in file.events.iter().enumerate() {
            let place = format!("seed {seed}, event {index}, {event:?}");
            let Some(found) = call(&mut bridge, event, &mut store, &mut area) else {
                // Header calls may write into the area.
                slow.play(event);
                area.copy_from_slice(&slow.area);
                continue;
            };
            match slow.play(event) {
                Outcome::Call(expected) => assert_eq!(found.0, answer(&expected), "{place}"),
                Outcome::Look { number, part } => {
                    assert_eq!((found.0.number, found.1), (number, part), "{place}");
                }
                other => panic!("{place}: {other:?}"),
            }
            assert_eq!(area, slow.area, "{place}");
            assert_eq!(store, slow.store, "{place}");
            assert!(same_registers(&bridge, &slow), "{place}");
            seen.events += 1;
            seen.numbers[found.0.number as usize] += 1;
        }
    }
    println!("{seen:?}");
    assert!(seen.events > 250_000);
    for number in (2..=15).chain([0]) {
        assert!(seen.numbers[number] > 100, "{number}: {seen:?}");
    }
}

/// The event on the plain version, and a look's bytes.
fn call(
    bridge: &mut Bridge,
    event: &Event,
    store: &mut [u8],
    area: &mut [u8],
) -> Option<(replay::plain::Answer, Vec<u8>)> {
    let answer = match event {
        Event::Read { burst, area: n } => bridge.read(plain_burst(burst), &mut area[..*n as usize]),
        Event::Write {
            burst,
            area: n,
            data,
        } => bridge.write(plain_burst(burst), data, &mut area[..*n as usize]),
        Event::Config { access, area: n } => {
            bridge.config(plain_access(access), &mut area[..*n as usize])
        }
        Event::Completion { store: n, bytes } => bridge.complete(bytes, &mut store[..*n as usize]),
        Event::Tick { store: n, repeat } => {
            let mut last = bridge.tick(&mut store[..*n as usize]);
            for _ in 1..*repeat {
                last = bridge.tick(&mut store[..*n as usize]);
            }
            last
        }
        Event::Link { store: n, up } => bridge.link(*up, &mut store[..*n as usize]),
        Event::Look { store: n, slot } => {
            let (number, part) = bridge.look(*slot, &store[..*n as usize]);
            let answer = replay::plain::Answer {
                number,
                ..replay::plain::Answer::DONE
            };
            return Some((answer, part.to_vec()));
        }
        Event::Release { store: n, slot } => bridge.release(*slot, &store[..*n as usize]),
        Event::Message { bytes } => bridge.message(bytes),
        _ => return None,
    };
    Some((answer, Vec::new()))
}
