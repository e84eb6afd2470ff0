//! Makes a capture from a seed, playing it on the plain bridge on the way, so
//! that the far side answers what was really sent.

mod odd;

use crate::far::{requests, Kind, Owed};
use crate::plain::capture::{play, Reader, ROW};
use crate::plain::{Bridge, Burst, AREA_BYTES, STORE_BYTES};
use crate::random::Random;
use crate::write;

#[derive(Clone, Copy, Debug, PartialEq, Eq)]
pub enum Mix {
    /// Several reads open, completions whole or cut, writes, configuration.
    Mixed,
    /// Read, completion, take in turn.
    Simple,
    /// As mixed, but every second event is a tick.
    Ticks,
    /// As mixed, with much that is refused; for checks.
    Lively,
}

/// A capture and what it holds.
pub struct Capture {
    pub bytes: Vec<u8>,
    pub events: usize,
    /// Reads that were accepted, and completions that were good.
    pub reads: usize,
    pub good: usize,
    /// Events by their name in a row.
    pub names: [usize; 8],
    pub refused: usize,
}

pub fn capture(mix: Mix, seed: u64, events: usize) -> Capture {
    let mut maker = Maker::new(mix, seed);
    maker.opening();
    while maker.done.events < events {
        maker.step();
    }
    write::end(&mut maker.done.bytes, maker.done.events as u32);
    maker.done
}

struct Maker {
    mix: Mix,
    random: Random,
    bridge: Bridge,
    reader: Reader,
    store: Vec<u8>,
    area: Vec<u8>,
    done: Capture,
    owed: Vec<Owed>,
    /// The slots that may hold an answer.
    waiting: Vec<u32>,
    link_up: bool,
}

impl Maker {
    fn new(mix: Mix, seed: u64) -> Maker {
        Maker {
            mix,
            random: Random::new(seed),
            bridge: Bridge::default(),
            reader: Reader::default(),
            store: vec![0; STORE_BYTES],
            area: vec![0; AREA_BYTES],
            done: Capture {
                bytes: Vec::new(),
                events: 0,
                reads: 0,
                good: 0,
                names: [0; 8],
                refused: 0,
            },
            owed: Vec::new(),
            waiting: Vec::new(),
            link_up: false,
        }
    }

    /// Adds the record that `write` writes and plays it.
    fn push(&mut self, write: impl FnOnce(&mut Vec<u8>)) -> [u64; ROW] {
        let at = self.done.bytes.len();
        write(&mut self.done.bytes);
        let mut row = [0; ROW];
        play(
            &mut self.bridge,
            &mut self.reader,
            &mut self.store,
            &mut self.area,
            &mut row,
            &self.done.bytes[at..],
            1,
        );
        let [name, number, _, slot, sent, ..] = row;
        self.done.events += 1;
        self.done.names[name as usize] += 1;
        self.done.refused += usize::from(number != 0);
        if number == 0 && (name == 0 || name == 2) {
            self.owed.extend(requests(&self.area[..sent as usize]));
            self.waiting.push(slot as u32);
        }
        self.done.reads += usize::from(number == 0 && name == 0);
        row
    }

    /// Buses 0/1/2 after the link has come up.
    fn opening(&mut self) {
        self.link(true);
        if self.mix != Mix::Simple {
            self.push(|out| write::config(out, 0x18, Some((15, 0x0002_0100))));
            self.take();
        }
    }

    fn link(&mut self, up: bool) {
        self.push(|out| write::link(out, up));
        if self.link_up && !up {
            self.owed.clear();
        }
        self.link_up = up;
    }

    fn tick(&mut self) {
        self.push(write::tick);
    }

    fn step(&mut self) {
        match self.mix {
            Mix::Simple => self.in_turn(),
            Mix::Ticks => {
                self.tick();
                self.work();
            }
            Mix::Mixed | Mix::Lively => self.work(),
        }
    }

    fn in_turn(&mut self) {
        let offset = self.random.below(0x4000) * 4;
        let words = 1 + self.random.below(32 - ((offset / 4) & 31));
        self.push(|out| write::read(out, burst(offset, 2, words)));
        self.answer(0);
        self.take();
    }

    /// One event of a busy bridge.
    fn work(&mut self) {
        if self.mix == Mix::Lively && self.random.often(150) {
            return self.odd();
        }
        if !self.link_up {
            return self.link(true);
        }
        match self.random.below(20_000) {
            0 => return self.link(false),
            1..=5 => return self.push_failure(),
            6..=500 if self.mix != Mix::Ticks => return self.tick(),
            501..=1600 => return self.write(),
            1601..=2200 if !self.waiting.contains(&8) => return self.config(),
            _ => {}
        }
        let owes = !self.owed.is_empty();
        match self.random.below(100) {
            0..=24 if self.waiting.len() > self.unanswered() => self.take_finished(),
            25..=84 if owes => self.answer(250),
            _ if owes && (self.waiting.len() > 6 || self.owed.len() > 20) => self.answer(250),
            _ if self.waiting.len() > 6 => self.take_finished(),
            _ => self.read(),
        }
    }

    /// A guess at how many accesses are open.
    fn unanswered(&self) -> usize {
        self.owed.len().min(self.waiting.len())
    }

    /// 4 to 512 bytes, mostly whole words.
    fn some_burst(&mut self, most: u32) -> Burst {
        loop {
            let size = [2, 2, 2, 3, 4, 5][self.random.index(6)];
            let length = 4 << self.random.below(most);
            let beats = (length >> size).max(1);
            let mut offset = self.random.below(0x1_0000);
            if !self.random.often(50) {
                offset &= !3;
            }
            let page = (offset & 0xFFF) >> size;
            if page + beats <= 4096 >> size {
                return burst(offset, size, beats);
            }
        }
    }

    fn read(&mut self) {
        let burst = self.some_burst(8);
        self.push(|out| write::read(out, burst));
    }

    fn write(&mut self) {
        let burst = self.some_burst(7);
        let start = burst.address as u32 & 0xFFF;
        let end = ((start >> burst.size) + burst.beats) << burst.size;
        let data: Vec<u8> = (start..end).map(|_| self.random.long() as u8).collect();
        self.push(|out| write::write(out, burst, &data));
    }

    fn config(&mut self) {
        let bus = self.random.below(3);
        let device = if bus == 1 { 0 } else { self.random.below(32) };
        let register = [0, 4, 0x10, 0x18, 0x138, 0x13C][self.random.index(6)];
        let offset = bus << 20 | device << 15 | register;
        let data = self.random.long() as u32;
        // The bus numbers stay.
        let write = (self.random.often(500) && bus != 0).then_some((15, data));
        self.push(|out| write::config(out, offset, write));
    }

    /// The far side answers something, mostly the oldest.
    fn answer(&mut self, split: u32) {
        let index = match self.random.often(700) {
            true => 0,
            false => self.random.index(self.owed.len()),
        };
        let (header, payload) = self.owed[index].answer(&mut self.random, split);
        if self.owed[index].missing == 0 {
            self.owed.remove(index);
        }
        let row = self.push(|out| write::completion(out, &header, &payload));
        self.done.good += usize::from(row[1] == 0);
    }

    fn push_failure(&mut self) {
        if let Some(mut owed) = self.owed.pop() {
            let status = match owed.kind {
                Kind::Memory => [1, 4][self.random.index(2)],
                _ => [1, 2, 4][self.random.index(3)],
            };
            let header = owed.fail(status);
            self.push(|out| write::completion(out, &header, &[]));
        }
    }

    fn take(&mut self) {
        if let Some(slot) = self.waiting.pop() {
            self.push(|out| write::take(out, slot));
        }
    }

    /// A slot that holds an answer, if there is one.
    fn take_finished(&mut self) {
        let (bridge, store) = (&self.bridge, &self.store);
        let holds = |slot: &u32| bridge.look(*slot, store).0 == 0;
        match self.waiting.iter().position(holds) {
            Some(index) => {
                let slot = self.waiting.remove(index);
                self.push(|out| write::take(out, slot));
            }
            None if self.owed.is_empty() => self.read(),
            None => self.answer(250),
        }
    }
}

fn burst(offset: u32, size: u32, beats: u32) -> Burst {
    Burst {
        address: 0x1234_0000 + u64::from(offset),
        size,
        beats,
        kind: 1,
    }
}
