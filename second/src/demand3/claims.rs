//! The claims on bytes and on the deadline, checked as the list goes on.

use super::honest::Sent;
use super::Figures;
use crate::answer::{Answer, Response};
use crate::generate::far::Kind;
use crate::traffic::Machine;
use std::ops::Range;

/// An accepted access.
pub struct Asked {
    slot: u32,
    /// The burst's length; none for a configuration access.
    length: Option<u32>,
    /// Which requests it sent.
    requests: Range<usize>,
    /// Ticks since it was accepted.
    ticks: u32,
    /// The T-th tick or a drop has come.
    over: bool,
    /// Good completions for all its bytes came before that.
    well: bool,
    answered: bool,
}

impl Asked {
    pub fn new(slot: u32, length: Option<u32>, requests: Range<usize>) -> Asked {
        Asked {
            slot,
            length,
            requests,
            ticks: 0,
            over: false,
            well: false,
            answered: false,
        }
    }

    /// The bytes that the lists of its requests send, in address order.
    fn bytes_sent(&self, sent: &[Sent]) -> Vec<u8> {
        let lists = sent[self.requests.clone()].iter().map(|s| &s.list);
        let items = lists.flatten();
        items.flat_map(|item| item.useful.iter().copied()).collect()
    }

    fn all_good(&self, sent: &[Sent]) -> bool {
        let requests = &sent[self.requests.clone()];
        requests.iter().all(|s| s.good_bytes == s.owed.left)
    }
}

/// The accesses that are not yet released.
#[derive(Default)]
pub struct Claims {
    open: Vec<Asked>,
}

impl Claims {
    pub fn asked(&mut self, asked: Asked) {
        self.open.push(asked);
    }

    /// An accepted tick, before the check that follows it.
    pub fn tick(&mut self, limit: u32) {
        for asked in &mut self.open {
            asked.ticks += 1;
            if asked.ticks == limit {
                asked.over = true;
            }
        }
    }

    pub fn dropped(&mut self) {
        self.open.iter_mut().for_each(|a| a.over = true);
    }

    /// A completion comes: some access may now have all that it needs.
    pub fn came(&mut self, sent: &[Sent]) {
        for asked in self.open.iter_mut().filter(|a| !a.over) {
            asked.well |= asked.all_good(sent);
        }
    }

    /// The release of an access: its response is judged once more.
    pub fn released(&mut self, slot: u32, answer: &Answer, sent: &[Sent]) -> Result<(), String> {
        let Some(index) = self.open.iter().position(|a| a.slot == slot) else {
            return Ok(()); // a local access
        };
        let asked = self.open.remove(index);
        if asked.well && answer.response != Response::Okay {
            return Err(format!("OKAY half: slot {slot} released as {answer:?}"));
        }
        config_word(&asked, answer, sent)
    }

    /// Bytes: after every event. Deadline: at the T-th tick, and after.
    pub fn check(
        &mut self,
        machine: &Machine,
        sent: &[Sent],
        figures: &mut Figures,
    ) -> Result<(), String> {
        for asked in &mut self.open {
            let (number, part) = machine.bridge.look(asked.slot, &machine.store);
            if number != 0 {
                if asked.over {
                    return Err(format!("deadline: slot {} not answered", asked.slot));
                }
                continue;
            }
            let response = response(machine, asked.slot);
            if asked.well && response != Response::Okay {
                return Err(format!("OKAY half: slot {} is {response:?}", asked.slot));
            }
            bytes(asked, response, part, sent)?;
            if !asked.answered {
                asked.answered = true;
                count(asked, response, figures);
            }
        }
        Ok(())
    }
}

/// What a release would report.
fn response(machine: &Machine, slot: u32) -> Response {
    let mut copy = machine.bridge.clone();
    copy.release(slot, &machine.store).response
}

fn bytes(asked: &Asked, response: Response, part: &[u8], sent: &[Sent]) -> Result<(), String> {
    let Some(length) = asked.length else {
        return Ok(());
    };
    let slot = asked.slot;
    if part.len() != length as usize {
        return Err(format!("bytes: slot {slot} shows {} bytes", part.len()));
    }
    if response == Response::Okay && part != asked.bytes_sent(sent) {
        return Err(format!("bytes: slot {slot} shows others than were sent"));
    }
    if response != Response::Okay && part.iter().any(|b| *b != 0) {
        return Err(format!("bytes: slot {slot} failed and is not zero"));
    }
    Ok(())
}

fn count(asked: &Asked, response: Response, figures: &mut Figures) {
    figures.well += u64::from(asked.well);
    match asked.length {
        Some(length) if response == Response::Okay => {
            figures.okay_reads += 1;
            figures.okay_bytes += u64::from(length);
        }
        Some(_) => figures.failed_reads += 1,
        None => {}
    }
}

/// A configuration read with a good completion has its word.
fn config_word(asked: &Asked, answer: &Answer, sent: &[Sent]) -> Result<(), String> {
    let request = &sent[asked.requests.start];
    if !asked.well || request.owed.kind != Kind::ConfigRead {
        return Ok(());
    }
    let word = request.list[0].useful.iter().rev();
    let word = word.fold(0, |sum, b| sum << 8 | u32::from(*b));
    match word == answer.data {
        true => Ok(()),
        false => Err(format!("configuration word: {answer:?}, sent {word:x}")),
    }
}
