//! A bench: a bridge with its store and area, and short names for calls.
#![allow(dead_code)]

use second::answer::{Answer, Response};
use second::bridge::{Access, Bridge};
use second::burst::Burst;
use second::header::{write_completion, Completion};
use second::settings::{AxiAddress, Settings};

#[derive(Clone, PartialEq, Debug)]
pub struct Bench {
    pub bridge: Bridge,
    pub store: Vec<u8>,
    pub area: Vec<u8>,
}

pub fn burst(start: u64, size: u32, beats: u32) -> Burst {
    Burst {
        start: AxiAddress(start),
        size,
        beats,
        kind: 1,
    }
}

pub fn answer(number: u32, response: Response, slot: u32, sent: u32, data: u32) -> Answer {
    Answer {
        number,
        response,
        slot,
        sent,
        data,
        session: 0,
    }
}

/// An accepted release.
pub fn taken(response: Response, data: u32, session: u32) -> Answer {
    Answer {
        session,
        ..answer(0, response, 0, 0, data)
    }
}

/// The row of a refusal: nothing but number and response.
pub fn refusal(number: u32, response: Response) -> Answer {
    answer(number, response, 0, 0, 0)
}

impl Bench {
    pub fn new(settings: &Settings) -> Bench {
        let (bridge, number) = Bridge::new(settings);
        assert_eq!(number, 0);
        Bench {
            bridge,
            store: (0..33_000).map(|i| (i % 199) as u8 | 1).collect(),
            area: (0..4700).map(|i| (i % 211) as u8).collect(),
        }
    }

    /// The example bridge, its link up.
    pub fn up() -> Bench {
        Bench::up_with(|_| {})
    }

    pub fn up_with(change: impl Fn(&mut Settings)) -> Bench {
        let mut settings = Settings::example();
        change(&mut settings);
        let mut bench = Bench::new(&settings);
        assert_eq!(bench.link(true).number, 0);
        bench
    }

    /// Also with buses 0/1/`subordinate`.
    pub fn routed(subordinate: u32) -> Bench {
        let mut bench = Bench::up();
        bench.local_write(0x018, 1 << 8 | subordinate << 16);
        bench
    }

    pub fn read(&mut self, start: u64, size: u32, beats: u32) -> Answer {
        self.bridge.read(&burst(start, size, beats), &mut self.area)
    }

    pub fn write(&mut self, start: u64, size: u32, beats: u32, data: &[u8]) -> Answer {
        let burst = burst(start, size, beats);
        self.bridge.write(&burst, data, &mut self.area)
    }

    pub fn config(&mut self, offset: u64, write: bool, data: u32, strobes: u32) -> Answer {
        let access = Access {
            offset,
            write,
            data,
            strobes,
        };
        self.bridge.config(&access, &mut self.area)
    }

    pub fn config_read(&mut self, offset: u64) -> Answer {
        self.config(offset, false, 0, 0)
    }

    pub fn local_write(&mut self, offset: u64, data: u32) {
        assert_eq!(self.config(offset, true, data, 15).number, 0);
        assert_eq!(self.release(8).response, Response::Okay);
    }

    /// A local write with these strobes.
    pub fn strobed_write(&mut self, offset: u64, data: u32, strobes: u32) {
        let accepted = self.config(offset, true, data, strobes);
        assert_eq!(accepted, answer(0, Response::None, 8, 0, 0));
        let session = self.bridge.session();
        assert_eq!(self.release(8), taken(Response::Okay, 0, session));
    }

    pub fn local_read(&mut self, offset: u64) -> u32 {
        let accepted = self.config_read(offset);
        assert_eq!(accepted, answer(0, Response::None, 8, 0, 0));
        let taken = self.release(8);
        assert_eq!(taken.response, Response::Okay);
        taken.data
    }

    pub fn complete(&mut self, bytes: &[u8]) -> Answer {
        self.bridge.complete(bytes, &mut self.store)
    }

    /// A good completion with data.
    pub fn data(&mut self, tag: u32, count: u32, lower: u32, payload: &[u8]) -> u32 {
        self.complete(&data(tag, count, lower, payload)).number
    }

    /// A completion without data.
    pub fn status(&mut self, tag: u32, status: u32) -> u32 {
        self.complete(&status_only(tag, status)).number
    }

    pub fn message(&mut self, bytes: &[u8]) -> Answer {
        self.bridge.message(bytes)
    }

    /// Messages of these codes, each from a requester of its own, are accepted.
    pub fn messages(&mut self, codes: &[u8]) {
        for (index, code) in codes.iter().enumerate() {
            let got = self.message(&message(0x0100 + index as u32, *code));
            assert_eq!(got, refusal(0, Response::None));
        }
    }

    /// Words 138, 148 and 154, as reads show them.
    pub fn error_words(&mut self) -> [u32; 3] {
        [0x138, 0x148, 0x154].map(|offset| self.local_read(offset))
    }

    pub fn tick(&mut self) -> Answer {
        self.bridge.tick(&mut self.store)
    }

    pub fn ticks(&mut self, count: u32) {
        for _ in 0..count {
            assert_eq!(self.tick().number, 0);
        }
    }

    pub fn link(&mut self, up: bool) -> Answer {
        self.bridge.link(up, &mut self.store)
    }

    pub fn look(&self, slot: u32) -> (u32, Vec<u8>) {
        let (number, part) = self.bridge.look(slot, &self.store);
        (number, part.to_vec())
    }

    pub fn release(&mut self, slot: u32) -> Answer {
        self.bridge.release(slot, &self.store)
    }

    pub fn sent(&self, answer: Answer) -> &[u8] {
        &self.area[..answer.sent as usize]
    }

    pub fn decode(&self) -> u32 {
        self.bridge.registers()[2]
    }

    pub fn tags(&self) -> Vec<u32> {
        self.bridge.pieces().iter().map(|p| p.tag).collect()
    }

    /// The call answers so and changes nothing at all.
    pub fn refuses(&self, expected: Answer, call: impl Fn(&mut Bench) -> Answer) {
        let mut after = self.clone();
        assert_eq!(call(&mut after), expected);
        assert_eq!(&after, self);
    }
}

pub fn value(tag: u32) -> Completion {
    Completion {
        data: false,
        poisoned: false,
        length: 0,
        completer: 0x0100,
        status: 0,
        count: 4,
        requester: 0,
        tag,
        lower: 0,
    }
}

pub fn with_payload(value: &Completion, payload: &[u8]) -> Vec<u8> {
    let mut header = [0; 16];
    let written = write_completion(value, &mut header);
    assert_eq!((written.number, written.length), (0, 12));
    let mut bytes = header[..12].to_vec();
    bytes.extend(payload);
    bytes
}

pub fn data(tag: u32, count: u32, lower: u32, payload: &[u8]) -> Vec<u8> {
    let value = Completion {
        data: true,
        length: payload.len() as u32 / 4,
        count,
        lower,
        ..value(tag)
    };
    with_payload(&value, payload)
}

pub fn poisoned(tag: u32, count: u32, lower: u32, payload: &[u8]) -> Vec<u8> {
    let mut bytes = data(tag, count, lower, payload);
    bytes[2] |= 0x40;
    bytes
}

pub fn status_only(tag: u32, status: u32) -> Vec<u8> {
    with_payload(
        &Completion {
            status,
            ..value(tag)
        },
        &[],
    )
}

/// An error message as 02 lays it out.
pub fn message(requester: u32, code: u8) -> Vec<u8> {
    let [_, _, high, low] = requester.to_be_bytes();
    let mut bytes = vec![0x30, 0, 0, 0, high, low, 0x07, code];
    bytes.resize(16, 0);
    bytes
}

/// Distinct bytes for a payload.
pub fn run_of(first: u8, count: usize) -> Vec<u8> {
    (0..count).map(|i| first.wrapping_add(i as u8)).collect()
}
