//! From traffic files to captures and back (docs/CAPTURE.md, "Tools").

mod pack;
mod unpack;

pub use pack::pack;
pub use unpack::Unpacker;

use crate::bridge::STORE_BYTES;
use crate::settings::Settings;
use crate::traffic::{Header, Making};

/// What a capture is played with, as a traffic file says it.
pub fn header() -> Header {
    Header {
        making: Making::Arrays,
        settings: Settings::example(),
        counter: 0,
        store: STORE_BYTES as u32,
    }
}
