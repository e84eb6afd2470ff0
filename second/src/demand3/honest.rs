//! A bridge with an honest far side: it loses and delays, but never invents or
//! doubles, keeps the order for each request, and sends nothing across a drop.

use super::claims::{Asked, Claims};
use super::lists::{list_for, Item};
use super::lives::Lives;
use super::{Counterexample, Figures};
use crate::answer::Answer;
use crate::bridge::{Bridge, CONFIG_SLOT};
use crate::burst::Burst;
use crate::generate::far::{headers, Kind, Owed};
use crate::generate::{bursts, configs, header_damage, lawful_settings, messages, Random};
use crate::traffic::{Event, Header, Machine, Making, Outcome};
use std::collections::BTreeSet;

/// A request that the bridge sent, with the list that is sent for it.
pub struct Sent {
    pub owed: Owed,
    pub list: Vec<Item>,
    /// How many of the list came or were lost.
    pub gone: usize,
    /// Useful bytes of good completions that came.
    pub good_bytes: u32,
    /// No link drop since it was sent.
    pub alive: bool,
}

pub struct World {
    random: Random,
    pub machine: Machine,
    pub sent: Vec<Sent>,
    claims: Claims,
    lives: Lives,
    events: Vec<Event>,
    figures: Figures,
    used_tags: BTreeSet<u32>,
    /// The far side is often later than the time limit.
    slow: bool,
    /// The last burst, for reads of the same shape.
    habit: Option<Burst>,
}

/// One trial. Bytes and deadline are checked after every event.
pub fn honest(seed: u64, events: usize) -> Result<Figures, Counterexample> {
    let mut random = Random::new(seed ^ 0x0D3);
    let mut settings = lawful_settings(seed, &mut random);
    settings.time_limit = match random.below(5) {
        0 => random.between(1, 4),
        1..=3 => random.between(5, 60),
        _ => random.between(61, 1000),
    };
    let header = Header {
        making: Making::Arrays,
        counter: u32::MAX - random.between(0, 500),
        store: 32_768,
        settings,
    };
    let setting = format!("{header:x?}");
    let mut machine = Machine::new(&header);
    // So that the session counter's end comes often.
    let first = u32::MAX - random.between(0, 7);
    machine.bridge.set_session(first);
    let mut world = World {
        random,
        machine,
        sent: Vec::new(),
        claims: Claims::default(),
        lives: Lives::new(first),
        events: Vec::new(),
        figures: Figures::default(),
        used_tags: BTreeSet::new(),
        slow: seed.is_multiple_of(3),
        habit: None,
    };
    let result = world.run(events);
    let figures = Figures {
        taken: world.lives.taken,
        taken_later: world.lives.taken_later,
        ..world.figures
    };
    result.map(|()| figures).map_err(|claim| Counterexample {
        claim,
        setting,
        events: world.events,
    })
}

impl World {
    fn run(&mut self, events: usize) -> Result<(), String> {
        // All buses from 1 on lie below, so that requests of both types come.
        let most = (1 << self.bridge().settings().bus_bits) - 1;
        self.local_write(0x018, 1 << 8 | most << 16)?;
        self.play(Event::Link {
            store: 32_768,
            up: true,
        })?;
        while self.events.len() < events {
            self.step()?;
        }
        Ok(())
    }

    fn step(&mut self) -> Result<(), String> {
        let limit = self.bridge().settings().time_limit;
        let (ticks, answers) = match self.slow {
            true => (limit.min(40) + 2, 30),
            false => (limit.min(40) / 4 + 1, 46),
        };
        let weights = [16, 4, 7, 5, answers, 4, ticks, 1, 18, 3, 3];
        match self.random.weighted(&weights) {
            0 => self.read(),
            1 => self.write(),
            2 => self.config(),
            3 => self.local(),
            4 => self.deliver(),
            5 => {
                self.lose();
                Ok(())
            }
            6 => self.tick(),
            7 => self.link(),
            8 => self.take(),
            9 => self.malformed(),
            _ => self.message(),
        }
    }

    fn bridge(&self) -> &Bridge {
        &self.machine.bridge
    }

    /// Plays an event and checks the claims.
    fn play(&mut self, event: Event) -> Result<Outcome, String> {
        let before = self.machine.bridge.clone();
        let outcome = self.machine.play(&event);
        self.figures.events += 1;
        self.events.push(event);
        let event = self.events.last().expect("just added").clone();
        self.lives.note(&event, &outcome)?;
        match outcome {
            Outcome::Call(answer) if answer.number == 0 => self.note(&event, &answer, &before)?,
            _ => {}
        }
        self.claims
            .check(&self.machine, &self.sent, &mut self.figures)?;
        Ok(outcome)
    }

    /// What an accepted call means for the far side and the claims.
    fn note(&mut self, event: &Event, answer: &Answer, before: &Bridge) -> Result<(), String> {
        match event {
            Event::Read { burst, .. } => {
                let length = burst.length().ok_or("a wrong burst was accepted")?;
                self.figures.reads += 1;
                self.requests(answer, Some(length));
            }
            Event::Config { .. } if answer.sent > 0 => {
                self.figures.configs += 1;
                let above_zero = self.machine.area[9] >> 3 != 0;
                self.figures.devices += u64::from(above_zero);
                self.requests(answer, None);
            }
            Event::Message { .. } => self.figures.messages += 1,
            Event::Tick { .. } => self.claims.tick(self.bridge().settings().time_limit),
            Event::Link { up: false, .. } => self.note_drop(before),
            Event::Release { slot, .. } => self.claims.released(*slot, answer, &self.sent)?,
            _ => {}
        }
        let queued = |bridge: &Bridge| bridge.errors().entries().len();
        let fewer = queued(before).saturating_sub(queued(self.bridge()));
        self.figures.removed += fewer as u64;
        let resting = self.bridge().resting().len();
        let more = resting.saturating_sub(before.resting().len());
        self.figures.timeouts += more as u64;
        Ok(())
    }

    fn note_drop(&mut self, before: &Bridge) {
        self.figures.drops += u64::from(before.link_is_up());
        self.sent.iter_mut().for_each(|s| s.alive = false);
        self.claims.dropped();
    }

    /// Makes the far side's lists for the requests just sent.
    fn requests(&mut self, answer: &Answer, length: Option<u32>) {
        let bytes = self.machine.area[..answer.sent as usize].to_vec();
        let bytes = match length {
            Some(_) => &bytes[..],
            None => &bytes[..12],
        };
        let first = self.sent.len();
        for owed in headers(bytes).into_iter().filter_map(Owed::of) {
            if !self.used_tags.insert(owed.tag) {
                self.figures.reused_tags += 1;
            }
            let list = list_for(&owed, &mut self.random);
            self.sent.push(Sent {
                owed,
                list,
                gone: 0,
                good_bytes: 0,
                alive: true,
            });
        }
        self.claims
            .asked(Asked::new(answer.slot, length, first..self.sent.len()));
    }

    fn read(&mut self) -> Result<(), String> {
        let settings = self.machine.bridge.settings();
        let burst = match (self.habit, self.random.below(20)) {
            (Some(burst), 0..=8) => burst,
            (_, 9 | 10) => bursts::burst(settings, &mut self.random),
            _ => bursts::lawful(settings, &mut self.random),
        };
        self.habit = Some(burst);
        self.play(Event::Read { burst, area: 4608 }).map(drop)
    }

    fn write(&mut self) -> Result<(), String> {
        let burst = bursts::burst(self.machine.bridge.settings(), &mut self.random);
        let length = burst.length().unwrap_or(0) as usize;
        let data = self.random.bytes(length);
        let area = self.random.pick(&[4608, 4608, 4608, 4607]);
        self.play(Event::Write { burst, area, data }).map(drop)
    }

    fn config(&mut self) -> Result<(), String> {
        let access = configs::routed(&self.machine.bridge, &mut self.random);
        self.play(Event::Config { access, area: 4608 }).map(drop)
    }

    fn local(&mut self) -> Result<(), String> {
        let access = match self.random.below(3) {
            0 => configs::removal(&self.machine.bridge, &mut self.random),
            _ => configs::local(&self.machine.bridge, &mut self.random),
        };
        self.play(Event::Config { access, area: 4608 }).map(drop)
    }

    fn local_write(&mut self, word: u32, data: u32) -> Result<(), String> {
        let access = configs::local_write(&self.machine.bridge, word, data, 15);
        self.play(Event::Config { access, area: 4608 })?;
        self.release(CONFIG_SLOT)
    }

    /// A request that still owes something: often the oldest.
    fn choose(&mut self) -> Option<usize> {
        let owing = |s: &Sent| s.alive && s.gone < s.list.len();
        let indices: Vec<usize> = (0..self.sent.len())
            .filter(|i| owing(&self.sent[*i]))
            .collect();
        match indices.len() {
            0 => None,
            _ if self.random.chance(40) => Some(indices[0]),
            _ => Some(self.random.pick(&indices)),
        }
    }

    fn deliver(&mut self) -> Result<(), String> {
        let Some(index) = self.choose() else {
            return self.read();
        };
        let next = &self.sent[index].list[self.sent[index].gone];
        if next.lost {
            self.sent[index].gone += 1;
            self.figures.lost += 1;
            return Ok(());
        }
        let tag = self.sent[index].owed.tag;
        let late = self.bridge().resting().contains(&tag);
        self.figures.late += u64::from(late);
        let sent = &mut self.sent[index];
        let item = &sent.list[sent.gone];
        sent.gone += 1;
        if item.good {
            let memory = sent.owed.kind == Kind::Memory;
            let useful = if memory { item.useful.len() as u32 } else { 4 };
            sent.good_bytes += useful;
        }
        let bytes = item.bytes.clone();
        self.claims.came(&self.sent);
        let outcome = self.play(Event::Completion {
            store: 32_768,
            bytes,
        })?;
        match outcome.number() {
            0 => Ok(()),
            13 => {
                self.figures.unexpected += 1;
                Ok(())
            }
            number => Err(format!("a well-formed completion got {number}")),
        }
    }

    fn lose(&mut self) {
        if let Some(index) = self.choose() {
            self.sent[index].gone += 1;
            self.figures.lost += 1;
        }
    }

    /// One tick, or now and then nearly or exactly T.
    fn tick(&mut self) -> Result<(), String> {
        let limit = self.bridge().settings().time_limit;
        let count = match self.random.below(30) {
            0 => limit,
            1 => limit - 1,
            2 => self.random.between(1, limit),
            _ => 1,
        };
        for _ in 0..count {
            let store = self.random.pick(&[32_768, 32_768, 32_768, 32_767]);
            self.play(Event::Tick { store, repeat: 1 })?;
        }
        Ok(())
    }

    fn link(&mut self) -> Result<(), String> {
        if self.random.chance(60) {
            self.link_to(false)?;
            for _ in 0..self.random.between(0, 6) {
                match self.random.chance(25) {
                    true => self.local()?,
                    false => self.take()?,
                }
            }
        }
        self.link_to(true)
    }

    /// Now and then refused first.
    fn link_to(&mut self, up: bool) -> Result<(), String> {
        if self.random.chance(15) {
            self.play(Event::Link { store: 32_767, up })?;
        }
        self.play(Event::Link { store: 32_768, up }).map(drop)
    }

    fn release(&mut self, slot: u32) -> Result<(), String> {
        let store = 32_768;
        self.play(Event::Release { store, slot }).map(drop)
    }

    /// Releases something finished, now and then refused first; now and then a
    /// slot in which nothing is finished.
    fn take(&mut self) -> Result<(), String> {
        let bridge = self.bridge();
        let reads = bridge.reads().iter().filter(|r| r.finished.is_some());
        let mut slots: Vec<u32> = reads.map(|r| r.slot).collect();
        if bridge.config_slot().is_finished() {
            slots.push(CONFIG_SLOT);
        }
        if slots.is_empty() || self.random.chance(5) {
            slots.push(self.random.between(0, 9));
        }
        let slot = self.random.pick(&slots);
        if self.random.chance(5) {
            let store = 32_767;
            self.play(Event::Release { store, slot })?;
        }
        self.release(slot)
    }

    /// Error messages may come at any time.
    fn message(&mut self) -> Result<(), String> {
        let bytes = messages::any(&mut self.random);
        self.play(Event::Message { bytes }).map(drop)
    }

    /// Malformed completions may come at any time.
    fn malformed(&mut self) -> Result<(), String> {
        let tag = self.random.between(0, 31);
        let mut bytes = vec![0x4A, 0, 0, 1, 0, 0, 0, 4, 0, 0, tag as u8, 0, 1, 2, 3, 4];
        header_damage(&mut bytes, &mut self.random);
        let mut trial = self.machine.clone();
        let event = Event::Completion {
            store: 32_768,
            bytes,
        };
        // Damage may leave it well formed: then it is not sent.
        match trial.play(&event).number() {
            12 => self.play(event).map(drop),
            _ => Ok(()),
        }
    }
}
