//! Plays captures: a bridge with the whiteboard settings, what is lent to it, and
//! an allowance of events for each call.

use super::stream::{Phase, Reader};
use super::{Event, Verdict};
use crate::answer::Answer;
use crate::bridge::{Access, Bridge, AREA_BYTES, STORE_BYTES};
use crate::settings::Settings;

/// The bridge with its store, zero at the start, and its sending area.
#[derive(Clone, Debug, PartialEq, Eq)]
pub struct Bench {
    pub bridge: Bridge,
    pub store: Vec<u8>,
    pub area: Vec<u8>,
}

impl Default for Bench {
    fn default() -> Bench {
        let (bridge, _) = Bridge::new(&Settings::example());
        Bench {
            bridge,
            store: vec![0; STORE_BYTES],
            area: vec![0; AREA_BYTES],
        }
    }
}

impl Bench {
    pub fn play(&mut self, event: &Event) -> Answer {
        match event {
            Event::Read(burst) => self.bridge.read(burst, &mut self.area),
            Event::Write { burst, data } => self.bridge.write(burst, data, &mut self.area),
            Event::ConfigRead { offset } => self.config(*offset, None),
            Event::ConfigWrite {
                offset,
                strobes,
                data,
            } => self.config(*offset, Some((*strobes, *data))),
            Event::Completion(bytes) => self.bridge.complete(bytes, &mut self.store),
            Event::Link { up } => self.bridge.link(*up, &mut self.store),
            Event::Tick => self.bridge.tick(&mut self.store),
            Event::Take { slot } => self.take(*slot),
            Event::Message(bytes) => self.bridge.message(bytes),
        }
    }

    fn config(&mut self, offset: u64, written: Option<(u32, u32)>) -> Answer {
        let (strobes, data) = written.unwrap_or((0, 0));
        let access = Access {
            offset,
            write: written.is_some(),
            data,
            strobes,
        };
        self.bridge.config(&access, &mut self.area)
    }

    /// "Taking is two calls with one set of refusals": a look, then a release.
    fn take(&mut self, slot: u32) -> Answer {
        let (look, _) = self.bridge.look(slot, &self.store);
        let answer = self.bridge.release(slot, &self.store);
        assert_eq!(look, answer.number);
        answer
    }
}

/// A capture on its way.
#[derive(Clone, Debug, Default, PartialEq, Eq)]
pub struct Player {
    pub reader: Reader,
    pub bench: Bench,
}

/// What a call of `play` did: how many events, and with how many bytes.
#[derive(Clone, Copy, Debug, Default, PartialEq, Eq)]
pub struct Played {
    pub events: u64,
    pub bytes: usize,
}

impl Player {
    /// Plays the events that these bytes complete, at most `allowance` of them, and
    /// tells each with its number in the file and its answer. Once the allowance is
    /// used up no further byte is looked at: an end or a fault behind the last
    /// event is left to the next call.
    pub fn play(
        &mut self,
        input: &[u8],
        allowance: u64,
        mut tell: impl FnMut(u64, &Event, &Answer),
    ) -> Played {
        let mut played = Played::default();
        while played.events < allowance {
            let (taken, event) = self.reader.step(&input[played.bytes..]);
            played.bytes += taken;
            let Some(event) = event else {
                break;
            };
            let answer = self.bench.play(&event);
            tell(self.reader.count(), &event, &answer);
            played.events += 1;
        }
        played
    }

    /// Whether further bytes can change anything.
    pub fn reads_on(&self) -> bool {
        self.reader.phase() == Phase::Reading
    }

    pub fn verdict(&self) -> Verdict {
        self.reader.verdict()
    }
}
