//! Memory reads and writes (01, "Memory bursts").

use super::{Bridge, ConfigSlot, Owner, Piece, Read, AREA_BYTES, BIT_BURST};
use crate::answer::{Answer, Response};
use crate::burst::{cut, Burst, Stretch};
use crate::header::{request_bytes, Request, Target};
use crate::settings::PcieAddress;

impl Bridge {
    /// Order: 8, 3, 2, 4, 5, 6, 7.
    pub fn read(&mut self, burst: &Burst, area: &mut [u8]) -> Answer {
        let (start, length) = match self.memory_start(burst, None, area.len()) {
            Ok(found) => found,
            Err(number) => return self.refuse_memory(number),
        };
        if matches!(self.config_slot, ConfigSlot::OpenRead { .. }) {
            return Answer::refused(5);
        }
        let Some(&slot) = self.free_slots().first() else {
            return Answer::refused(6);
        };
        let stretches = cut(start, length, self.settings.read_limit);
        if self.free_tags().len() < stretches.len() {
            return Answer::refused(7);
        }
        self.reads.push(Read {
            slot,
            length,
            failures: Vec::new(),
            finished: None,
            session: self.session,
        });
        let mut sent = Vec::new();
        for (rank, stretch) in stretches.iter().enumerate() {
            let tag = self.open_read_piece(slot, rank as u32, stretch);
            sent.extend(self.memory_header(false, tag, stretch));
        }
        area[..sent.len()].copy_from_slice(&sent);
        Answer {
            slot,
            sent: sent.len() as u32,
            ..Answer::accepted()
        }
    }

    /// Order: 8, 3, 2, 15, 4. "Writes are posted: OKAY when sent".
    pub fn write(&mut self, burst: &Burst, data: &[u8], area: &mut [u8]) -> Answer {
        let (start, length) = match self.memory_start(burst, Some(data.len()), area.len()) {
            Ok(found) => found,
            Err(number) => return self.refuse_memory(number),
        };
        let mut sent = Vec::new();
        for stretch in cut(start, length, self.settings.write_limit) {
            // "a memory write has tag 0"
            sent.extend(self.memory_header(true, 0, &stretch));
            sent.extend(words_of(&stretch, data));
        }
        area[..sent.len()].copy_from_slice(&sent);
        Answer {
            response: Response::Okay,
            sent: sent.len() as u32,
            ..Answer::accepted()
        }
    }

    /// The tests that both kinds share, in order; where the burst starts on
    /// PCIe and its length.
    fn memory_start(
        &self,
        burst: &Burst,
        data: Option<usize>,
        area: usize,
    ) -> Result<(PcieAddress, u32), u32> {
        if area < AREA_BYTES {
            return Err(8);
        }
        let length = burst.length().ok_or(3u32)?;
        // 2: "no window holds the first byte"
        let start = self.settings.translate(burst.start).ok_or(2u32)?;
        // 15: "write data not the burst's length"
        if data.is_some_and(|given| given != length as usize) {
            return Err(15);
        }
        if !self.link_up {
            return Err(4);
        }
        Ok((start, length))
    }

    /// Only refusal 3 has a change: bit 25.
    fn refuse_memory(&mut self, number: u32) -> Answer {
        if number == 3 {
            self.set_bit(BIT_BURST);
        }
        Answer::refused(number)
    }

    /// "Each read piece takes the lowest-numbered free tag".
    fn open_read_piece(&mut self, slot: u32, rank: u32, stretch: &Stretch) -> u32 {
        let tag = self.free_tags()[0];
        self.pieces.push(Piece {
            tag,
            owner: Owner::Read(slot),
            born: self.now,
            rank,
            next: stretch.address,
            place: stretch.place,
            missing: stretch.length,
        });
        tag
    }

    fn memory_header(&self, write: bool, tag: u32, stretch: &Stretch) -> Vec<u8> {
        let (first, last) = stretch.enables();
        let address = stretch.address.0 - u64::from(stretch.lead());
        request_bytes(&Request {
            write,
            target: Target::Memory(PcieAddress(address)),
            length: stretch.words(),
            requester: self.settings.requester,
            tag,
            last,
            first,
        })
        .expect("a piece of a lawful burst has a header")
    }
}

/// A write piece's words, "unwanted bytes zero".
fn words_of(stretch: &Stretch, data: &[u8]) -> Vec<u8> {
    let mut words = vec![0; 4 * stretch.words() as usize];
    let lead = stretch.lead() as usize;
    let from = stretch.place as usize;
    let length = stretch.length as usize;
    words[lead..lead + length].copy_from_slice(&data[from..from + length]);
    words
}
