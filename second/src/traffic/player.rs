//! Plays events on a bridge with one store and one area.

use super::{log, Decoder, Event, Header, AREA_LIMIT};
use crate::answer::Answer;
use crate::bridge::Bridge;
use crate::header::{read_completion, read_request, write_completion, write_request};
use crate::header::{Completion, Request, Written};
use std::io::{self, Write};

/// Adler-32: sums of up to 40,960 bytes fit in 64 bits, so the remainders are
/// taken once. Whole blocks are summed by weights, which is quicker.
pub fn adler(bytes: &[u8]) -> u32 {
    const BLOCK: usize = 64;
    let mut a = 1u64;
    let mut b = 0u64;
    let blocks = bytes.chunks_exact(BLOCK);
    let rest = blocks.remainder();
    for block in blocks {
        let mut sum = 0u32;
        let mut weighted = 0u32;
        for (index, byte) in block.iter().enumerate() {
            let byte = u32::from(*byte);
            sum = sum.wrapping_add(byte);
            weighted = weighted.wrapping_add(byte.wrapping_mul((BLOCK - index) as u32));
        }
        b += BLOCK as u64 * a + u64::from(weighted);
        a += u64::from(sum);
    }
    for byte in rest {
        a += u64::from(*byte);
        b += a;
    }
    ((b % 65_521) * 65_536 + a % 65_521) as u32
}

/// What one event answered.
#[derive(Clone, Debug, PartialEq, Eq)]
pub enum Outcome {
    Call(Answer),
    Look { number: u32, part: Vec<u8> },
    Written(Written),
    Request(Option<Request>),
    Completion(Option<Completion>),
}

impl Outcome {
    pub fn number(&self) -> u32 {
        match self {
            Outcome::Call(answer) => answer.number,
            Outcome::Look { number, .. } => *number,
            Outcome::Written(written) => written.number,
            Outcome::Request(value) => value.map_or(12, |_| 0),
            Outcome::Completion(value) => value.map_or(12, |_| 0),
        }
    }
}

/// The bridge with what is lent to it.
#[derive(Clone)]
pub struct Machine {
    pub bridge: Bridge,
    pub store: Vec<u8>,
    pub area: Vec<u8>,
    /// The number that the new call gave.
    pub number: u32,
}

impl Machine {
    pub fn new(header: &Header) -> Machine {
        let (mut bridge, number) = match header.list() {
            Some(records) => Bridge::from_list(&records, &header.settings),
            None => Bridge::new(&header.settings),
        };
        bridge.set_counter(header.counter);
        if let Some(session) = header.first_session() {
            bridge.set_session(session);
        }
        Machine {
            bridge,
            store: (0..header.store).map(|i| (i % 251) as u8).collect(),
            area: (0..AREA_LIMIT).map(|i| (i % 241) as u8).collect(),
            number,
        }
    }

    pub fn play(&mut self, event: &Event) -> Outcome {
        match event {
            Event::Read { burst, area } => {
                Outcome::Call(self.bridge.read(burst, &mut self.area[..*area as usize]))
            }
            Event::Write { burst, area, data } => {
                let area = &mut self.area[..*area as usize];
                Outcome::Call(self.bridge.write(burst, data, area))
            }
            Event::Config { access, area } => {
                Outcome::Call(self.bridge.config(access, &mut self.area[..*area as usize]))
            }
            Event::Completion { store, bytes } => {
                let store = &mut self.store[..*store as usize];
                Outcome::Call(self.bridge.complete(bytes, store))
            }
            Event::Tick { store, repeat } => Outcome::Call(self.ticks(*store, *repeat)),
            Event::Link { store, up } => {
                Outcome::Call(self.bridge.link(*up, &mut self.store[..*store as usize]))
            }
            Event::Look { store, slot } => {
                let (number, part) = self.bridge.look(*slot, &self.store[..*store as usize]);
                let part = part.to_vec();
                Outcome::Look { number, part }
            }
            Event::Release { store, slot } => {
                Outcome::Call(self.bridge.release(*slot, &self.store[..*store as usize]))
            }
            Event::Message { bytes } => Outcome::Call(self.bridge.message(bytes)),
            _ => self.header_call(event),
        }
    }

    fn ticks(&mut self, store: u32, repeat: u32) -> Answer {
        let store = &mut self.store[..store as usize];
        let mut answer = self.bridge.tick(store);
        for _ in 1..repeat {
            answer = self.bridge.tick(store);
        }
        answer
    }

    fn header_call(&mut self, event: &Event) -> Outcome {
        match event {
            Event::RequestWriter { area, value } => {
                Outcome::Written(write_request(value, &mut self.area[..*area as usize]))
            }
            Event::RequestReader { bytes } => Outcome::Request(read_request(bytes)),
            Event::CompletionWriter { area, value } => {
                Outcome::Written(write_completion(value, &mut self.area[..*area as usize]))
            }
            Event::CompletionReader { bytes } => Outcome::Completion(read_completion(bytes)),
            _ => unreachable!("the other kinds are played above"),
        }
    }
}

/// Plays a whole file and writes its log; no event is played after a write that
/// fails.
pub fn play(bytes: &[u8], out: &mut impl Write) -> io::Result<()> {
    let mut decoder = Decoder::new(bytes);
    let mut machine = match decoder.header() {
        Ok(header) => Machine::new(&header),
        Err(fault) => return writeln!(out, "{}", log::fault(&fault)),
    };
    writeln!(out, "{}", log::first(&machine))?;
    let mut index = 0;
    loop {
        match decoder.event() {
            Ok(Some(event)) => {
                let outcome = machine.play(&event);
                writeln!(out, "{}", log::line(index, &event, &outcome, &machine))?;
                index += 1;
            }
            Ok(None) => return writeln!(out, "end {index}"),
            Err(fault) => return writeln!(out, "{}", log::fault(&fault)),
        }
    }
}
