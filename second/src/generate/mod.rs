//! Makes traffic from a seed. It plays what it makes on the bridge, so that the
//! far side can answer what was really sent.

pub(crate) mod bursts;
pub mod captures;
pub(crate) mod configs;
mod damage;
mod devices;
mod edges;
pub mod far;
mod headers;
mod lives;
mod locals;
pub(crate) mod messages;
mod odd;
mod queue;
mod random;
mod scenes;
mod session_edges;
mod settings;
mod takes;

pub use damage::damage;
pub use edges::edges;
pub(crate) use headers::damage_completion as header_damage;
pub use random::Random;
pub use session_edges::session_edges;
pub use settings::{lawful as lawful_settings, WAYS};

use crate::answer::Answer;
use crate::bridge::{Access, ConfigSlot, AREA_BYTES, CONFIG_SLOT, STORE_BYTES};
use crate::burst::Burst;
use crate::traffic::{Event, Machine, Outcome, Traffic};
use crate::traffic::{AREA_LIMIT, REPEATS_LIMIT, REPEAT_LIMIT};
use far::{packet, FarSide, Kind};

pub const DEFAULT_EVENTS: usize = 400;

/// The traffic of a seed.
pub fn traffic(seed: u64, events: usize) -> Traffic {
    let mut random = Random::new(seed);
    let header = settings::header(seed, &mut random);
    let machine = Machine::new(&header);
    let mut generator = Generator::new(machine, random);
    generator.opening();
    while generator.events.len() < events {
        generator.step();
    }
    generator.events.truncate(events);
    Traffic {
        header,
        events: generator.events,
    }
}

/// Weights of the actions, in the order of `Generator::act`: read, write,
/// routed, local, answer, odd answer, loss, tick, link, take, odd take, header,
/// message, scene.
const MOODS: [[u32; 14]; 5] = [
    [14, 8, 9, 6, 44, 3, 1, 4, 1, 14, 2, 4, 2, 7],   // calm
    [40, 4, 10, 2, 14, 3, 1, 2, 1, 4, 3, 2, 1, 4],   // filling up
    [4, 2, 3, 2, 60, 2, 1, 2, 1, 30, 2, 2, 1, 4],    // emptying
    [16, 4, 9, 4, 20, 18, 6, 10, 3, 12, 4, 2, 4, 7], // stormy
    [3, 3, 2, 2, 8, 2, 1, 2, 1, 4, 2, 50, 5, 1],     // headers
];

pub struct Generator {
    pub random: Random,
    pub machine: Machine,
    pub far: FarSide,
    pub events: Vec<Event>,
    /// Lend only what is long enough.
    pub full: bool,
    /// Only what the records of a capture can hold.
    packed: bool,
    /// How many ticks the file may still have.
    ticks_left: u32,
    mood: usize,
    mood_left: u32,
}

impl Generator {
    pub fn new(machine: Machine, random: Random) -> Generator {
        Generator {
            random,
            machine,
            far: FarSide::default(),
            events: Vec::new(),
            full: false,
            packed: false,
            ticks_left: REPEATS_LIMIT,
            mood: 0,
            mood_left: 30,
        }
    }

    /// Mostly: sensible bus numbers, then the link up.
    pub fn opening(&mut self) {
        if self.random.chance(80) {
            self.set_buses();
        }
        if self.random.chance(30) {
            self.local_before_the_first_life();
        }
        if self.random.chance(90) {
            self.link(true);
        }
    }

    /// Adds one event or a few.
    pub fn step(&mut self) {
        if self.mood_left == 0 {
            self.mood = self.random.weighted(&[45, 15, 12, 22, 6]);
            self.mood_left = self.random.between(10, 60);
        }
        self.mood_left -= 1;
        if !self.machine.bridge.link_is_up() && self.random.chance(30) {
            return self.link(true);
        }
        let mut weights = MOODS[self.mood];
        // Few ticks where the time limit is short.
        let limit = self.machine.bridge.settings().time_limit;
        weights[7] = weights[7] * limit.min(20) / 20 + 1;
        match self.random.weighted(&weights) {
            action @ 0..=3 => {
                self.make_room(action);
                self.ask(action);
            }
            action => self.act(action),
        }
    }

    /// Mostly: what would only have to wait gets its slot first.
    fn make_room(&mut self, action: usize) {
        let bridge = &self.machine.bridge;
        let config = bridge.config_slot();
        let full = bridge.free_slots().is_empty();
        if action >= 2 && config != ConfigSlot::Free && self.random.chance(85) {
            self.finish_config();
        } else if action == 0 && full && self.random.chance(70) {
            self.take_finished();
        }
    }

    /// The open configuration access is answered, then taken.
    fn finish_config(&mut self) {
        let list = &self.far.live;
        if let Some(index) = list.iter().position(|o| o.kind != Kind::Memory) {
            match self.random.below(10) {
                0..=4 => self.answer_request(index),
                5..=7 => self.fail(index),
                8 => self.poison(index),
                _ => {
                    let owed = self.far.live[index].clone();
                    self.unexpected(&owed);
                }
            }
        }
        self.release(CONFIG_SLOT);
    }

    fn ask(&mut self, action: usize) {
        let settings = self.machine.bridge.settings();
        match action {
            0 => {
                let burst = bursts::burst(settings, &mut self.random);
                self.read(burst);
            }
            1 => {
                let burst = bursts::burst(settings, &mut self.random);
                self.write(burst);
            }
            2 => {
                let access = configs::routed(&self.machine.bridge, &mut self.random);
                self.config(access);
            }
            _ => {
                let access = configs::local(&self.machine.bridge, &mut self.random);
                self.config(access);
            }
        }
    }

    fn act(&mut self, action: usize) {
        match action {
            4 => self.answer(),
            5 => self.odd_answer(),
            6 => self.lose(),
            7 => self.some_ticks(),
            8 => self.some_link(),
            9 => self.take_finished(),
            10 => self.odd_take(),
            11 => {
                let event = headers::call(&mut self.random);
                self.push(event);
            }
            12 => self.some_message(),
            _ => self.scene(),
        }
    }

    /// Plays an event, keeps it, and tells the far side.
    pub fn push(&mut self, mut event: Event) -> Outcome {
        if self.packed {
            captures::fit(&mut event);
        }
        let outcome = self.machine.play(&event);
        if let Outcome::Call(Answer {
            number: 0, sent, ..
        }) = outcome
        {
            let sent = &self.machine.area[..sent as usize];
            match event {
                Event::Read { .. } => self.far.take_reads(sent),
                Event::Config { .. } => self.far.take_config(sent),
                _ => {}
            }
        }
        self.far.sync(&self.machine.bridge);
        self.events.push(event);
        outcome
    }

    /// The length of the area to lend.
    fn area(&mut self) -> u32 {
        let enough = AREA_BYTES as u32;
        match self.random.below(50) {
            0 if !self.full => self.random.pick(&[0, 12, 4607, 4607, 4000]),
            1..=9 => self.random.between(enough, AREA_LIMIT),
            _ => enough,
        }
    }

    /// The length of the store to lend.
    fn store(&mut self) -> u32 {
        let whole = self.machine.store.len() as u32;
        let enough = STORE_BYTES as u32;
        let wanted = match self.random.below(60) {
            0 if !self.full => self.random.pick(&[0, 4096, 32_767, 32_767]),
            1..=9 => enough,
            _ => whole,
        };
        wanted.min(whole)
    }

    pub fn read(&mut self, burst: Burst) -> Outcome {
        let area = self.area();
        self.push(Event::Read { burst, area })
    }

    fn write(&mut self, burst: Burst) {
        let right = burst.length().unwrap_or(4) as usize;
        let odds = match self.machine.bridge.link_is_up() {
            true => 20,
            false => 4,
        };
        let length = match self.random.below(odds) {
            0 => self.random.pick(&[0, 1, right + 1, right - 1, 4096]),
            _ => right,
        };
        let data = self.random.bytes(length);
        let area = self.area();
        self.push(Event::Write { burst, area, data });
    }

    pub fn config(&mut self, access: Access) -> Outcome {
        let area = self.area();
        self.push(Event::Config { access, area })
    }

    pub fn link(&mut self, up: bool) {
        let store = self.store();
        self.push(Event::Link { store, up });
    }

    fn some_link(&mut self) {
        let up = self.random.chance(50);
        self.link(up);
    }

    pub fn ticks(&mut self, repeat: u32) {
        let store = self.store();
        self.ticks_with(store, repeat);
    }

    /// One tick at a time where few are left, so that a very long file has some
    /// for longer; in the end none.
    fn ticks_with(&mut self, store: u32, repeat: u32) {
        let repeat = match self.ticks_left {
            0 => return,
            left if left < REPEAT_LIMIT => 1,
            _ => repeat,
        };
        self.ticks_left -= repeat;
        self.push(Event::Tick { store, repeat });
    }

    fn some_ticks(&mut self) {
        let limit = self.machine.bridge.settings().time_limit;
        let repeat = match self.random.below(20) {
            0 => limit.min(4000),
            1 => (limit - 1).clamp(1, 4000),
            2 if self.random.chance(10) => limit,
            2..=4 => self.random.between(1, limit.min(200)),
            _ => 1,
        };
        self.ticks(repeat);
    }

    /// The far side sends the next right completion for some request.
    pub fn answer(&mut self) {
        match self.far.choose(&mut self.random) {
            None => self.ask(0),
            Some(index) => self.answer_request(index),
        }
    }

    pub fn answer_request(&mut self, index: usize) {
        let owed = self.far.live[index].clone();
        let words = owed.some_words(&mut self.random);
        let value = owed.right(words, &mut self.random);
        let bytes = packet(&value, &mut self.random);
        let store = self.store();
        // Told to the far side first: a closed request leaves its list.
        self.far.advance(index, owed.useful(words));
        self.push(Event::Completion { store, bytes });
    }

    /// The next completion of some request never comes.
    fn lose(&mut self) {
        if let Some(index) = self.far.choose(&mut self.random) {
            let owed = self.far.live[index].clone();
            let words = owed.some_words(&mut self.random);
            self.far.advance(index, owed.useful(words));
        }
    }
}
