//! Packed captures (02, request A5; docs/CAPTURE.md): the records, the writer, the
//! readers and the player.

pub mod convert;
mod layout;
pub mod lines;
mod play;
mod read;
mod stream;
mod write;

pub use layout::{Layout, BODY_LIMIT, COMPLETION_LEAST, DATA_LIMIT};
pub use layout::{FRONT_BYTES, LAYOUTS, RECORD_LIMIT};
pub use layout::{KIND_COMPLETION, KIND_CONFIG, KIND_END, KIND_LINK};
pub use layout::{KIND_READ, KIND_TAKE, KIND_TICK, KIND_WRITE};
pub use play::{Bench, Played, Player};
pub use read::{file, next, Fault, Next, Verdict};
pub use stream::{Phase, Reader};
pub use write::{end_record, record, write, write_end};

use crate::burst::Burst;

/// One event. A configuration read has no strobes and no data: "both ignored in a
/// read, written 0".
#[derive(Clone, Debug, PartialEq, Eq)]
pub enum Event {
    Read(Burst),
    Write {
        burst: Burst,
        data: Vec<u8>,
    },
    ConfigRead {
        offset: u64,
    },
    ConfigWrite {
        offset: u64,
        strobes: u32,
        data: u32,
    },
    /// Header and payload, whatever they say.
    Completion(Vec<u8>),
    Link {
        up: bool,
    },
    Tick,
    Take {
        slot: u32,
    },
    /// An error message: no kind of record stands for it, so that no file gives it
    /// and the writer refuses it.
    Message(Vec<u8>),
}

impl Event {
    /// "its name (read, write, config, completion, link up, link down, tick,
    /// take)"; that of a message is never printed.
    pub fn name(&self) -> &'static str {
        match self {
            Event::Read(_) => "read",
            Event::Write { .. } => "write",
            Event::ConfigRead { .. } | Event::ConfigWrite { .. } => "config",
            Event::Completion(_) => "completion",
            Event::Link { up: true } => "link up",
            Event::Link { up: false } => "link down",
            Event::Tick => "tick",
            Event::Take { .. } => "take",
            Event::Message(_) => "message",
        }
    }
}
