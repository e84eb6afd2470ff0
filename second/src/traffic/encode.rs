//! From values to the bytes of a traffic file.

use super::*;
use crate::header::Target;

struct Sink(Vec<u8>);

impl Sink {
    fn byte(&mut self, value: u8) {
        self.0.push(value);
    }

    fn flag(&mut self, value: bool) {
        self.byte(u8::from(value));
    }

    fn word(&mut self, value: u32) {
        self.0.extend(value.to_be_bytes());
    }

    fn words(&mut self, values: &[u32]) {
        values.iter().for_each(|v| self.word(*v));
    }

    fn long(&mut self, value: u64) {
        self.0.extend(value.to_be_bytes());
    }

    fn data(&mut self, bytes: &[u8]) {
        self.word(bytes.len() as u32);
        self.0.extend(bytes);
    }

    fn window(&mut self, window: &Window) {
        self.long(window.base);
        self.long(window.size);
        self.long(window.target);
    }

    fn burst(&mut self, burst: &Burst) {
        self.long(burst.start.0);
        self.words(&[burst.size, burst.beats, burst.kind]);
    }
}

pub fn traffic(traffic: &Traffic) -> Vec<u8> {
    let mut sink = Sink(Vec::new());
    header(&mut sink, &traffic.header);
    for item in &traffic.events {
        event(&mut sink, item);
    }
    sink.0.extend(end_bytes(traffic.events.len() as u32));
    sink.0
}

/// The parts of a file, for one that is written as it comes.
pub fn header_bytes(value: &Header) -> Vec<u8> {
    let mut sink = Sink(Vec::new());
    header(&mut sink, value);
    sink.0
}

pub fn event_bytes(value: &Event) -> Vec<u8> {
    let mut sink = Sink(Vec::new());
    event(&mut sink, value);
    sink.0
}

pub fn end_bytes(count: u32) -> Vec<u8> {
    let mut sink = Sink(vec![KIND_END]);
    sink.word(count);
    sink.0
}

fn header(sink: &mut Sink, header: &Header) {
    let settings = &header.settings;
    sink.0.extend(MAGIC);
    sink.words(&[header.version(), settings.count]);
    for window in &settings.windows {
        sink.window(window);
    }
    sink.words(&[settings.bus_bits, settings.read_limit]);
    sink.words(&[settings.write_limit, settings.time_limit]);
    sink.words(&[settings.requester, header.counter, header.store]);
    if let Some(seventh) = header.seventh() {
        sink.window(&seventh);
    }
    if let Some(session) = header.first_session() {
        sink.word(session);
    }
}

fn event(sink: &mut Sink, event: &Event) {
    match event {
        Event::Read { burst, area } => {
            sink.byte(KIND_READ);
            sink.word(*area);
            sink.burst(burst);
        }
        Event::Write { burst, area, data } => {
            sink.byte(KIND_WRITE);
            sink.word(*area);
            sink.burst(burst);
            sink.data(data);
        }
        Event::Config { access, area } => {
            sink.byte(KIND_CONFIG);
            sink.word(*area);
            sink.long(access.offset);
            sink.flag(access.write);
            sink.words(&[access.data, access.strobes]);
        }
        Event::Completion { store, bytes } => {
            sink.byte(KIND_COMPLETION);
            sink.word(*store);
            sink.data(bytes);
        }
        Event::Tick { store, repeat } => {
            sink.byte(KIND_TICK);
            sink.words(&[*store, *repeat]);
        }
        Event::Link { store, up } => {
            sink.byte(KIND_LINK);
            sink.word(*store);
            sink.flag(*up);
        }
        Event::Look { store, slot } => {
            sink.byte(KIND_LOOK);
            sink.words(&[*store, *slot]);
        }
        Event::Release { store, slot } => {
            sink.byte(KIND_RELEASE);
            sink.words(&[*store, *slot]);
        }
        Event::Message { bytes } => {
            sink.byte(KIND_MESSAGE);
            sink.data(bytes);
        }
        _ => header_call(sink, event),
    }
}

fn header_call(sink: &mut Sink, event: &Event) {
    match event {
        Event::RequestWriter { area, value } => {
            sink.byte(KIND_REQUEST_WRITER);
            sink.word(*area);
            request(sink, value);
        }
        Event::RequestReader { bytes } => {
            sink.byte(KIND_REQUEST_READER);
            sink.data(bytes);
        }
        Event::CompletionWriter { area, value } => {
            sink.byte(KIND_COMPLETION_WRITER);
            sink.word(*area);
            completion(sink, value);
        }
        Event::CompletionReader { bytes } => {
            sink.byte(KIND_COMPLETION_READER);
            sink.data(bytes);
        }
        _ => unreachable!("the other kinds are written above"),
    }
}

fn request(sink: &mut Sink, value: &Request) {
    sink.flag(value.write);
    match value.target {
        Target::Memory(address) => {
            sink.byte(0);
            sink.long(address.0);
            sink.words(&[0; 5]);
        }
        Target::Config {
            type1,
            bus,
            device,
            function,
            extended,
            register,
        } => {
            sink.byte(1 + u8::from(type1));
            sink.long(0);
            sink.words(&[bus, device, function, extended, register]);
        }
    }
    sink.words(&[value.length, value.requester, value.tag]);
    sink.words(&[value.last, value.first]);
}

fn completion(sink: &mut Sink, value: &Completion) {
    sink.flag(value.data);
    sink.flag(value.poisoned);
    sink.words(&[value.length, value.completer, value.status, value.count]);
    sink.words(&[value.requester, value.tag, value.lower]);
}
