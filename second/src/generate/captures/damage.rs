//! Damaged captures: one sort of damage after the other, by the seed.

use super::sorts::{Behind, Off, Place, Sort, Wrong};
use super::{capture, end_of};
use crate::capture::{record, Event, LAYOUTS};
use crate::capture::{KIND_CONFIG, KIND_END, KIND_TICK};
use crate::generate::Random;

/// The seed's capture with the damage whose turn it is.
pub fn damaged(seed: u64, events: usize) -> Vec<u8> {
    let sorts = Sort::all();
    let sort = sorts[(seed % sorts.len() as u64) as usize];
    let mut random = Random::new(seed ^ 0xBAD_CA97);
    let mut records = capture(seed, events).records;
    let at = place(sort.record(), &mut records, &mut random);
    if at == records.len() {
        records.push(end_of(at as u64));
    } else if random.chance(70) {
        records.push(end_of(records.len() as u64));
    }
    if sort == Sort::Empty {
        return Vec::new();
    }
    let mut damage = Damage {
        random,
        whole: records.split_off(at + 1).concat(),
    };
    let mut record = records.pop().expect("the record to damage");
    damage.apply(sort, &mut record, at as u64);
    let mut bytes = records.concat();
    bytes.extend(record);
    bytes.extend(damage.whole);
    bytes
}

/// The index of such a record, which is put in where there is none; the end has
/// that after the last.
fn place(wanted: Option<(u8, bool)>, records: &mut Vec<Vec<u8>>, random: &mut Random) -> usize {
    let places: Vec<usize> = match wanted {
        None => (0..records.len()).collect(),
        Some((KIND_END, _)) => vec![records.len()],
        Some((kind, write)) => (0..records.len())
            .filter(|i| is(&records[*i], kind, write))
            .collect(),
    };
    if !places.is_empty() {
        return random.pick(&places);
    }
    let (kind, write) = wanted.unwrap_or((KIND_TICK, false));
    let at = random.below(records.len() as u64 + 1) as usize;
    records.insert(at, sample(kind, write));
    at
}

fn is(record: &[u8], kind: u8, write: bool) -> bool {
    // The write flag stands in bit 3 of the fourth byte of the body.
    let writes = || kind == KIND_CONFIG && record[6] & 8 != 0;
    record[0] >> 4 == kind && writes() == write
}

/// A record of the kind with zero in every field.
fn sample(kind: u8, write: bool) -> Vec<u8> {
    if kind == KIND_CONFIG && write {
        let event = Event::ConfigWrite {
            offset: 0,
            strobes: 0,
            data: 0,
        };
        return record(&event).expect("zeros fit");
    }
    let length = LAYOUTS[usize::from(kind)].shortest();
    let mut bytes = vec![kind << 4, 0, length as u8];
    bytes.resize(3 + length, 0);
    bytes
}

struct Damage {
    random: Random,
    /// What stands behind the damaged record.
    whole: Vec<u8>,
}

impl Damage {
    fn apply(&mut self, sort: Sort, record: &mut Vec<u8>, count: u64) {
        match sort {
            Sort::Kind(kind) => self.kind(kind, record),
            Sort::Length(kind, wrong) => self.length(kind, wrong, record),
            Sort::Padding { byte, bit, .. } => record[byte] |= 1 << bit,
            Sort::Cut(_, place) => self.cut(place, record),
            Sort::Count(off) => self.count(off, record, count),
            Sort::After(behind) => self.after(behind, count),
            Sort::NoEnd => record.clear(),
            Sort::Empty => {}
            Sort::KindAndLength => {
                let kind = self.random.between(8, 15) as u8;
                self.kind(kind, record);
                record[0] |= self.random.between(1, 15) as u8;
                record[1..3].fill(255);
            }
            Sort::KindAlone => {
                let kind = self.random.between(8, 15) as u8;
                self.kind(kind, record);
                record.truncate(1);
                self.whole.clear();
            }
            Sort::LengthAndPadding(kind) => {
                self.length(kind, Wrong::OneLong, record);
                record[0] |= self.random.between(1, 15) as u8;
            }
            Sort::LengthAlone(kind) => {
                self.length(kind, Wrong::Huge, record);
                record.truncate(3);
                self.whole.clear();
            }
            Sort::PaddingAndCount => {
                self.count(Off::OneMore, record, count);
                record[0] |= self.random.between(1, 15) as u8;
            }
            Sort::CutAndPadding(_) => {
                record[0] |= self.random.between(1, 15) as u8;
                self.cut(Place::OneShort, record);
            }
            Sort::AllPadding(kind) => {
                let layout = &LAYOUTS[usize::from(kind)];
                record[0] |= 15;
                if layout.padding() > 0 {
                    record[2 + layout.field_bytes()] |= (1 << layout.padding()) - 1;
                }
            }
        }
    }

    fn kind(&mut self, kind: u8, record: &mut [u8]) {
        record[0] = (kind << 4) + record[0] % 16;
    }

    /// Half of the time the body has the length that is said, or begins so.
    fn length(&mut self, kind: u8, wrong: Wrong, record: &mut Vec<u8>) {
        let layout = &LAYOUTS[usize::from(kind)];
        let length = match wrong {
            Wrong::OneShort => layout.shortest() - 1,
            Wrong::OneLong => layout.longest() + 1,
            Wrong::Huge => {
                let any = self.random.between(layout.longest() as u32 + 2, 65_535);
                self.random.pick(&[any, any, 65_535]) as usize
            }
            Wrong::Nothing => 0,
        };
        record[1..3].copy_from_slice(&(length as u16).to_be_bytes());
        if self.random.chance(50) {
            record.resize(3 + length.min(5000), 0);
        }
    }

    fn cut(&mut self, place: Place, record: &mut Vec<u8>) {
        let length = match place {
            Place::Front(bytes) => bytes,
            // Neither the first byte of the body nor its last but one.
            Place::Body if record.len() > 6 => {
                self.random.between(4, record.len() as u32 - 2) as usize
            }
            Place::Body => 4,
            Place::OneShort => record.len() - 1,
        };
        record.truncate(length);
        self.whole.clear();
    }

    fn count(&mut self, off: Off, record: &mut [u8], count: u64) {
        let right = count as u32;
        let wrong = match off {
            Off::OneMore => right + 1,
            Off::OneLess => right.wrapping_sub(1),
            Off::Bit => right ^ 1 << self.random.between(1, 31),
            // Low byte first.
            Off::Swapped => match right.swap_bytes() {
                same if same == right => right ^ 0x0100_0000,
                swapped => swapped,
            },
        };
        record[3..7].copy_from_slice(&wrong.to_be_bytes());
    }

    fn after(&mut self, behind: Behind, count: u64) {
        self.whole = match behind {
            Behind::Bytes => {
                let length = self.random.between(1, 5000) as usize;
                self.random.bytes(length)
            }
            Behind::Record => record(&Event::Tick).expect("a tick fits"),
            Behind::End => end_of(count),
            Behind::Bad => vec![self.random.between(128, 255) as u8],
        };
    }
}
