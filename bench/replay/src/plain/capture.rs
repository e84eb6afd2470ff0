//! Replays a packed capture on a bridge, block by block.

use super::record::{next, Fault, Next, Record, HEAD_BYTES, RECORD_BYTES};
use super::Bridge;

/// One row an event: its name (read 0, write 1, configuration 2, completion 3,
/// link up 4, link down 5, tick 6, take 7), number, response, slot, sent length,
/// data word, session.
pub const ROW: usize = 7;

#[derive(Clone, Copy, Debug, PartialEq, Eq)]
pub struct Played {
    /// Events played.
    pub played: usize,
    /// Bytes of the input that are done with.
    pub consumed: usize,
}

#[derive(Clone, Copy, Debug, PartialEq, Eq)]
enum Phase {
    Reading,
    Ended,
    Bad(Fault),
}

/// What the last line of a capture's log says.
#[derive(Clone, Copy, Debug, PartialEq, Eq)]
pub enum Verdict {
    End(u64),
    Cut(u64),
    /// With the record's offset.
    Bad(Fault, u64),
}

/// How far a capture is read.
#[derive(Clone, Copy, Debug)]
struct Progress {
    /// The offset of the present record.
    at: u64,
    events: u64,
    phase: Phase,
}

/// Reads a capture block by block. A record that a block's end has cut is held
/// until the rest comes; all others are read where they lie.
#[derive(Clone, Debug)]
pub struct Reader {
    progress: Progress,
    held: [u8; RECORD_BYTES],
    /// How many bytes of `held` count.
    kept: usize,
}

impl Default for Reader {
    fn default() -> Reader {
        Reader {
            progress: Progress {
                at: 0,
                events: 0,
                phase: Phase::Reading,
            },
            held: [0; RECORD_BYTES],
            kept: 0,
        }
    }
}

impl Reader {
    /// If the input ends here.
    pub fn verdict(&self) -> Verdict {
        let Progress { at, events, phase } = self.progress;
        match phase {
            Phase::Reading => Verdict::Cut(events),
            Phase::Ended => Verdict::End(events),
            Phase::Bad(fault) => Verdict::Bad(fault, at),
        }
    }

    fn is_reading(&self) -> bool {
        self.progress.phase == Phase::Reading
    }

    /// Moves bytes to the held record until it is judged or the input is used
    /// up; hands back how many.
    fn fill(&mut self, input: &[u8]) -> usize {
        let mut moved = 0;
        while moved < input.len() && next(&self.held[..self.kept]) == Next::More {
            let wanted = match self.held[..self.kept] {
                [_, high, low, ..] => HEAD_BYTES + usize::from(u16::from_be_bytes([high, low])),
                _ => self.kept + 1,
            };
            let more = (wanted - self.kept).min(input.len() - moved);
            self.held[self.kept..][..more].copy_from_slice(&input[moved..][..more]);
            self.kept += more;
            moved += more;
        }
        moved
    }

    /// Keeps the start of a record; it is shorter than one.
    fn hold(&mut self, cut: &[u8]) {
        self.held[..cut.len()].copy_from_slice(cut);
        self.kept = cut.len();
    }
}

/// The state that a call works on.
struct Lent<'a> {
    bridge: &'a mut Bridge,
    store: &'a mut [u8],
    area: &'a mut [u8],
}

/// Plays at most `allowance` events of the input, as far as `rows` has room; a
/// call with the allowance used up judges nothing more.
pub fn play(
    bridge: &mut Bridge,
    reader: &mut Reader,
    store: &mut [u8],
    area: &mut [u8],
    rows: &mut [u64],
    input: &[u8],
    allowance: usize,
) -> Played {
    let mut lent = Lent {
        bridge,
        store,
        area,
    };
    let (rows, _) = rows.as_chunks_mut::<ROW>();
    let room = allowance.min(rows.len());
    let rows = &mut rows[..room];
    let mut rest = input;
    let mut played = 0;
    if reader.kept > 0 && room > 0 && reader.is_reading() {
        rest = &rest[reader.fill(rest)..];
        let record = &reader.held[..reader.kept];
        (played, _) = play_whole(&mut lent, &mut reader.progress, &mut rows[..1], record);
        reader.kept *= 1 - played;
    }
    if reader.kept == 0 && reader.is_reading() {
        let more;
        (more, rest) = play_whole(&mut lent, &mut reader.progress, &mut rows[played..], rest);
        played += more;
        if played < room && reader.is_reading() {
            reader.hold(rest);
            rest = &[];
        }
    }
    Played {
        played,
        consumed: input.len() - rest.len(),
    }
}

/// Plays the records that lie whole in the input, one for each row; hands back
/// how many, and the input that is not judged. With rows left and no end and no
/// fault, that is the start of a record.
#[inline(never)]
fn play_whole<'a>(
    lent: &mut Lent<'_>,
    progress: &mut Progress,
    rows: &mut [[u64; ROW]],
    input: &'a [u8],
) -> (usize, &'a [u8]) {
    let mut played = 0;
    let mut rest = input;
    let mut judged = 0;
    for row in rows {
        let (name, answer) = match next(rest) {
            Next::Whole(record, behind) => {
                let done = match record {
                    Record::Read(burst) => (0, lent.bridge.read(burst, lent.area)),
                    Record::Write(burst, data) => (1, lent.bridge.write(burst, data, lent.area)),
                    Record::Config(access) => (2, lent.bridge.config(access, lent.area)),
                    Record::Completion(packet) => (3, lent.bridge.complete(packet, lent.store)),
                    Record::Link(up) => (if up { 4 } else { 5 }, lent.bridge.link(up, lent.store)),
                    Record::Tick => (6, lent.bridge.tick(lent.store)),
                    Record::Take(slot) => {
                        // The look's part is the caller's to read, not copied.
                        let (_number, _part) = lent.bridge.look(slot, lent.store);
                        (7, lent.bridge.release(slot, lent.store))
                    }
                    Record::End(count) => {
                        let events = progress.events + played as u64;
                        progress.phase = match u64::from(count) == events {
                            true => Phase::Ended,
                            false => Phase::Bad(Fault::Count),
                        };
                        judged = rest.len() - behind.len();
                        break;
                    }
                };
                rest = behind;
                done
            }
            Next::More => break,
            Next::Bad(fault, size) => {
                progress.phase = Phase::Bad(fault);
                judged = size;
                break;
            }
        };
        *row = answer.row(name);
        played += 1;
    }
    progress.events += played as u64;
    progress.at += (input.len() - rest.len()) as u64;
    (played, &rest[judged..])
}
