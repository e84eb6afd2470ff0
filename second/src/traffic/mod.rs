//! Traffic files: the events as values, their bytes, and the player
//! (docs/TRAFFIC.md).

mod decode;
mod encode;
mod log;
mod player;

pub use decode::{Decoder, Fault};
pub use encode::{end_bytes, event_bytes, header_bytes};
pub use log::line;
pub use player::{adler, play, Machine, Outcome};

use crate::bridge::Access;
use crate::burst::Burst;
use crate::header::{Completion, Request};
use crate::settings::{Settings, Window};

pub const MAGIC: [u8; 4] = *b"APBT";
/// The versions: the bridge is made from plain arrays; or from a list of window
/// records, and the header has one record more; or so, and the header has the
/// session counter's first value too.
pub const VERSION_ARRAYS: u32 = 1;
pub const VERSION_LIST: u32 = 2;
pub const VERSION_SESSION: u32 = 3;
pub const HEADER_BYTES: usize = 184;
pub const RECORD_BYTES: usize = 24;
pub const SESSION_BYTES: usize = 4;
pub const END_BYTES: usize = 5;
pub const AREA_LIMIT: u32 = 8192;
pub const DATA_LIMIT: u32 = 8192;
pub const STORE_LIMIT: u32 = 40_960;
pub const REPEAT_LIMIT: u32 = 131_072;
/// The repeats of all tick records of a file together.
pub const REPEATS_LIMIT: u32 = 67_108_864;

pub const KIND_READ: u8 = 1;
pub const KIND_WRITE: u8 = 2;
pub const KIND_CONFIG: u8 = 3;
pub const KIND_COMPLETION: u8 = 4;
pub const KIND_TICK: u8 = 5;
pub const KIND_LINK: u8 = 6;
pub const KIND_LOOK: u8 = 7;
pub const KIND_RELEASE: u8 = 8;
pub const KIND_REQUEST_WRITER: u8 = 9;
pub const KIND_REQUEST_READER: u8 = 10;
pub const KIND_COMPLETION_WRITER: u8 = 11;
pub const KIND_COMPLETION_READER: u8 = 12;
pub const KIND_MESSAGE: u8 = 13;
pub const KIND_END: u8 = 255;

/// How the bridge is made.
#[derive(Clone, Copy, Debug, PartialEq, Eq)]
pub enum Making {
    Arrays,
    /// From a list, whose seventh record is this.
    List(Window),
    /// From such a list, with this first value of the session counter.
    ListAndSession(Window, u32),
}

/// What stands before the events.
#[derive(Clone, Debug, PartialEq, Eq)]
pub struct Header {
    pub making: Making,
    pub settings: Settings,
    /// The first value of the tick counter.
    pub counter: u32,
    /// The store's length.
    pub store: u32,
}

/// One event; `area` and `store` are the lengths lent.
#[derive(Clone, Debug, PartialEq, Eq)]
pub enum Event {
    Read {
        burst: Burst,
        area: u32,
    },
    Write {
        burst: Burst,
        area: u32,
        data: Vec<u8>,
    },
    Config {
        access: Access,
        area: u32,
    },
    Completion {
        store: u32,
        bytes: Vec<u8>,
    },
    Tick {
        store: u32,
        repeat: u32,
    },
    Link {
        store: u32,
        up: bool,
    },
    Look {
        store: u32,
        slot: u32,
    },
    Release {
        store: u32,
        slot: u32,
    },
    RequestWriter {
        area: u32,
        value: Request,
    },
    RequestReader {
        bytes: Vec<u8>,
    },
    CompletionWriter {
        area: u32,
        value: Completion,
    },
    CompletionReader {
        bytes: Vec<u8>,
    },
    /// Lent neither store nor area.
    Message {
        bytes: Vec<u8>,
    },
}

impl Header {
    /// The records of the list: as many as the count says, seven for a larger
    /// one. Nothing where the bridge is made from arrays.
    pub fn list(&self) -> Option<Vec<Window>> {
        let mut records = self.settings.windows.to_vec();
        records.push(self.seventh()?);
        records.truncate(self.settings.count as usize);
        Some(records)
    }

    pub fn version(&self) -> u32 {
        match self.making {
            Making::Arrays => VERSION_ARRAYS,
            Making::List(_) => VERSION_LIST,
            Making::ListAndSession(..) => VERSION_SESSION,
        }
    }

    pub fn seventh(&self) -> Option<Window> {
        match self.making {
            Making::Arrays => None,
            Making::List(seventh) | Making::ListAndSession(seventh, _) => Some(seventh),
        }
    }

    /// The first value of the session counter, where the header has one.
    pub fn first_session(&self) -> Option<u32> {
        match self.making {
            Making::ListAndSession(_, session) => Some(session),
            _ => None,
        }
    }
}

impl Event {
    /// The event's name in the log.
    pub fn name(&self) -> &'static str {
        match self {
            Event::Read { .. } => "read",
            Event::Write { .. } => "write",
            Event::Config { .. } => "config",
            Event::Completion { .. } => "completion",
            Event::Tick { .. } => "tick",
            Event::Link { .. } => "link",
            Event::Look { .. } => "look",
            Event::Release { .. } => "release",
            Event::RequestWriter { .. } => "request-writer",
            Event::RequestReader { .. } => "request-reader",
            Event::CompletionWriter { .. } => "completion-writer",
            Event::CompletionReader { .. } => "completion-reader",
            Event::Message { .. } => "message",
        }
    }
}

/// A whole traffic file.
#[derive(Clone, Debug, PartialEq, Eq)]
pub struct Traffic {
    pub header: Header,
    pub events: Vec<Event>,
}

impl Traffic {
    /// The file's bytes.
    pub fn encode(&self) -> Vec<u8> {
        encode::traffic(self)
    }

    /// The whole file, or its first fault.
    pub fn decode(bytes: &[u8]) -> Result<Traffic, Fault> {
        let mut decoder = Decoder::new(bytes);
        let header = decoder.header()?;
        let mut events = Vec::new();
        while let Some(event) = decoder.event()? {
            events.push(event);
        }
        Ok(Traffic { header, events })
    }
}
