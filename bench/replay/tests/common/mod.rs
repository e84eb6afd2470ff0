//! The slow model's values beside the plain version's.
#![allow(dead_code)]

use replay::plain::{self, Answer};
use replay::write;
use second::bridge::{Access, REGISTERS};
use second::burst::Burst;
use second::generate::{Generator, Random};
use second::settings::Settings;
use second::traffic::{Event, Header, Machine, Making};

pub const STORE: usize = plain::STORE_BYTES;
pub const AREA: usize = plain::AREA_BYTES;

/// Whiteboard settings, both counters at their fresh values.
pub fn whiteboard() -> Header {
    Header {
        making: Making::Arrays,
        settings: Settings::example(),
        counter: 0,
        store: STORE as u32,
    }
}

/// The events of second's generator that a capture can hold, each tick by
/// itself, a release as a take; a long run of ticks up to `ticks` of them.
pub fn events(seed: u64, count: usize, ticks: u32) -> Vec<Event> {
    let machine = Machine::new(&whiteboard());
    let mut generator = Generator::new(machine, Random::new(seed));
    generator.opening();
    while generator.events.len() < count {
        generator.step();
    }
    let mut list = Vec::new();
    for event in generator.events {
        match event {
            Event::Tick { repeat, store } => {
                let one = Event::Tick { repeat: 1, store };
                list.extend((0..repeat.min(ticks)).map(|_| one.clone()));
            }
            event => list.push(event),
        }
    }
    list.retain(holds);
    list
}

fn holds(event: &Event) -> bool {
    match event {
        Event::Read { burst, .. } => burst_fits(burst),
        Event::Write { burst, data, .. } => burst_fits(burst) && data.len() <= 4102,
        Event::Config { access, .. } => {
            access.offset < 1 << 28 && (!access.write || access.strobes < 16)
        }
        Event::Completion { bytes, .. } => (12..=4112).contains(&bytes.len()),
        Event::Tick { .. } | Event::Link { .. } => true,
        Event::Release { slot, .. } => *slot < 16,
        _ => false,
    }
}

fn burst_fits(burst: &Burst) -> bool {
    burst.size < 8 && (1..=256).contains(&burst.beats) && burst.kind < 4
}

/// The event's record.
pub fn record(event: &Event) -> Vec<u8> {
    let mut out = Vec::new();
    match event {
        Event::Read { burst, .. } => write::read(&mut out, plain_burst(burst)),
        Event::Write { burst, data, .. } => write::write(&mut out, plain_burst(burst), data),
        Event::Config { access, .. } => {
            let chosen = access.write.then_some((access.strobes, access.data));
            write::config(&mut out, access.offset as u32, chosen);
        }
        Event::Completion { bytes, .. } => {
            write::completion(&mut out, &bytes[..12], &bytes[12..]);
        }
        Event::Tick { .. } => write::tick(&mut out),
        Event::Link { up, .. } => write::link(&mut out, *up),
        Event::Release { slot, .. } => write::take(&mut out, *slot),
        _ => unreachable!("filtered"),
    }
    out
}

/// The same event with areas of the capture's lengths.
pub fn with_full_areas(event: &Event) -> Event {
    let mut event = event.clone();
    match &mut event {
        Event::Read { area, .. } | Event::Write { area, .. } | Event::Config { area, .. } => {
            *area = AREA as u32;
        }
        Event::Completion { store, .. }
        | Event::Tick { store, .. }
        | Event::Link { store, .. }
        | Event::Look { store, .. }
        | Event::Release { store, .. } => *store = STORE as u32,
        _ => {}
    }
    event
}

/// Its name in a row.
pub fn name(event: &Event) -> u64 {
    match event {
        Event::Read { .. } => 0,
        Event::Write { .. } => 1,
        Event::Config { .. } => 2,
        Event::Completion { .. } => 3,
        Event::Link { up: true, .. } => 4,
        Event::Link { up: false, .. } => 5,
        Event::Tick { .. } => 6,
        _ => 7,
    }
}

pub fn plain_burst(burst: &Burst) -> plain::Burst {
    plain::Burst {
        address: burst.start.0,
        size: burst.size,
        beats: burst.beats,
        kind: burst.kind,
    }
}

pub fn plain_access(access: &Access) -> plain::Access {
    plain::Access {
        offset: access.offset,
        write: access.write,
        strobes: access.strobes,
        data: access.data,
    }
}

pub fn plain_settings(settings: &Settings) -> plain::Settings {
    let mut windows = [plain::Window::default(); 6];
    for (to, from) in windows.iter_mut().zip(settings.used()) {
        *to = plain::Window {
            base: from.base,
            size: from.size,
            target: from.target,
        };
    }
    plain::Settings {
        windows,
        bus_bits: settings.bus_bits,
        read_limit: settings.read_limit,
        write_limit: settings.write_limit,
        time_limit: settings.time_limit,
        requester: settings.requester,
    }
}

/// The slow model's answer as the plain one's.
pub fn answer(slow: &second::answer::Answer) -> Answer {
    use second::answer::Response;
    Answer {
        number: slow.number,
        response: match slow.response {
            Response::None => plain::Response::None,
            Response::Okay => plain::Response::Okay,
            Response::Slverr => plain::Response::Slverr,
            Response::Decerr => plain::Response::Decerr,
            Response::Wait => plain::Response::Wait,
        },
        slot: slow.slot,
        sent: slow.sent,
        data: slow.data,
        session: slow.session,
    }
}

pub fn same_registers(bridge: &plain::Bridge, slow: &Machine) -> bool {
    REGISTERS.map(|word| bridge.local_word(word)) == slow.bridge.registers()
        && bridge.line() == slow.bridge.line()
        && bridge.queued().count() == slow.bridge.errors().entries().len()
}
