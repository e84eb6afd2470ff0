//! Which life of the link each answer belongs to, counted from the events alone
//! (02, request A2).

use crate::answer::Answer;
use crate::bridge::CONFIG_SLOT;
use crate::traffic::{Event, Outcome};

const SLOTS: usize = CONFIG_SLOT as usize + 1;

pub struct Lives {
    up: bool,
    /// The number of the present life, or of the last one.
    life: u32,
    /// For each slot the life in which its access was accepted.
    accepted: [u32; SLOTS],
    /// Answers taken, and those of them that are of an earlier life.
    pub taken: u64,
    pub taken_later: u64,
}

impl Lives {
    /// A bridge whose link is down, with this number of the last life.
    pub fn new(life: u32) -> Lives {
        Lives {
            up: false,
            life,
            accepted: [0; SLOTS],
            taken: 0,
            taken_later: 0,
        }
    }

    /// Every session number is that of the life in which the taken access was
    /// accepted; where nothing is taken it is 0.
    pub fn note(&mut self, event: &Event, outcome: &Outcome) -> Result<(), String> {
        let Outcome::Call(answer) = outcome else {
            return Ok(());
        };
        let right = match event {
            Event::Release { slot, .. } if answer.number == 0 => self.take(*slot),
            _ => 0,
        };
        if answer.number == 0 {
            self.accept(event, answer);
        }
        match answer.session == right {
            true => Ok(()),
            false => Err(format!(
                "session: {event:x?} gave {}, not {right}",
                answer.session
            )),
        }
    }

    fn take(&mut self, slot: u32) -> u32 {
        let life = self.accepted[slot as usize];
        self.taken += 1;
        self.taken_later += u64::from(life != self.life);
        life
    }

    fn accept(&mut self, event: &Event, answer: &Answer) {
        match event {
            Event::Read { .. } | Event::Config { .. } => {
                self.accepted[answer.slot as usize] = self.life;
            }
            Event::Link { up, .. } => {
                let begins = *up && !self.up;
                self.life = self.life.wrapping_add(u32::from(begins));
                self.up = *up;
            }
            _ => {}
        }
    }
}
