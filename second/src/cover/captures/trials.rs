//! Captures in any cutting, with any allowances: the lines must be those of the
//! definition.

use super::CaptureCoverage;
use crate::capture::{file, lines, next, Bench, Next, Played, Player};
use crate::generate::Random;

impl CaptureCoverage {
    pub(super) fn trial(&mut self, bytes: &[u8], seed: u64) {
        let mut random = Random::new(seed ^ 0xA110_3A7C);
        let mut player = Player::default();
        let mut said = Vec::new();
        let mut rest = bytes;
        let bound = random
            .pick(&[5, 40, 900, 70_000])
            .max(rest.len() as u32 / 1000);
        while !rest.is_empty() {
            let length = random.between(0, bound).min(rest.len() as u32) as usize;
            let (block, more) = rest.split_at(length);
            self.block(&mut player, block, &mut random, &mut said);
            rest = more;
        }
        if (said, player.verdict()) != by_definition(bytes) {
            self.wrong.push(format!("seed {seed}: a cutting shows"));
        }
    }

    /// Calls until the block is used up, or there is nothing more to play.
    fn block(
        &mut self,
        player: &mut Player,
        mut block: &[u8],
        random: &mut Random,
        said: &mut Vec<u8>,
    ) {
        if !player.reads_on() {
            let played = player.play(block, u64::MAX, |_, _, _| {});
            self.hit("call after the end or a fault");
            self.check(played == Played::default(), "a call after the end");
            return;
        }
        loop {
            let allowance = random.pick(&[0, 1, 1, 2, 5, 40, 3000, u64::MAX]);
            let within = player.reader.within();
            let before = player.reader.clone();
            let count = before.count();
            let played = player.play(block, allowance, |count, event, answer| {
                lines::event(said, count, event, answer.number);
            });
            let same = player.reader.count() == count + played.events;
            self.check(same && played.events <= allowance, "events of a call");
            block = &block[played.bytes..];
            if allowance == 0 {
                let still = player.reader == before && played == Played::default();
                self.check(still, "an allowance of 0");
                self.hit("allowance 0");
            }
            self.hit_if(allowance == 1, "allowance 1");
            self.hit_if(within && played.events > 0, "record over two calls");
            let used_up = allowance > 0 && played.events == allowance;
            self.hit_if(used_up, "allowance used up");
            self.hit_if(played.events < allowance, "allowance not used up");
            let behind = next(player.reader.count(), block);
            if used_up && player.reads_on() {
                self.hit_if(matches!(behind, Next::End { .. }), "end left behind");
                self.hit_if(matches!(behind, Next::Bad { .. }), "fault left behind");
                let more = matches!(behind, Next::Event { .. });
                self.hit_if(more, "event left behind");
            }
            if block.is_empty() || !player.reads_on() {
                return;
            }
        }
    }

    fn check(&mut self, holds: bool, what: &str) {
        if !holds {
            self.wrong.push(format!("not as defined: {what}"));
        }
    }
}

/// The events of the whole file, played one after the other.
fn by_definition(bytes: &[u8]) -> (Vec<u8>, crate::capture::Verdict) {
    let (events, verdict) = file(bytes);
    let mut bench = Bench::default();
    let mut said = Vec::new();
    for (index, event) in events.iter().enumerate() {
        let number = bench.play(event).number;
        lines::event(&mut said, index as u64 + 1, event, number);
    }
    (said, verdict)
}

pub(super) fn required() -> Vec<String> {
    [
        "allowance 0",
        "allowance 1",
        "allowance used up",
        "allowance not used up",
        "event left behind",
        "end left behind",
        "fault left behind",
        "record over two calls",
        "call after the end or a fault",
    ]
    .map(str::to_string)
    .to_vec()
}
