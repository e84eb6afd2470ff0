//! Header values, their writers and readers (01, "Header bytes").

mod completion;
mod message;
mod request;

pub use completion::{read_completion, write_completion, Completion};
pub use message::{read_message, Message, Severity};
pub use message::{CODE_CORRECTABLE, CODE_FATAL, CODE_NON_FATAL, MESSAGE_BYTES, MESSAGE_FIRST};
pub use request::{read_request, write_request, Request, Target};

pub(crate) use request::request_bytes;

/// What a header writer answers: its number and how many bytes it filled.
#[derive(Clone, Copy, Debug, PartialEq, Eq)]
pub struct Written {
    pub number: u32,
    pub length: u32,
}

/// Order "headers 8, 12": a 16-byte area, then the ranges. "A writer fills a
/// prefix of its area and the rest stays."
fn fill(area: &mut [u8], header: Option<Vec<u8>>) -> Written {
    let refused = |number| Written { number, length: 0 };
    if area.len() < 16 {
        return refused(8);
    }
    match header {
        None => refused(12),
        Some(bytes) => {
            area[..bytes.len()].copy_from_slice(&bytes);
            Written {
                number: 0,
                length: bytes.len() as u32,
            }
        }
    }
}

/// "EP in bit 6 and length bits 9:8 in 1:0; length 7:0"; 1,024 is written as 0.
fn length_bytes(poisoned: bool, length: u32) -> [u8; 2] {
    let bits = if length == 1024 { 0 } else { length };
    [u8::from(poisoned) << 6 | (bits >> 8) as u8, bits as u8]
}

/// The raw length bits of a header, 0 to 1,023.
fn length_bits(bytes: &[u8]) -> u32 {
    u32::from(bytes[2] & 3) << 8 | u32::from(bytes[3])
}

fn poison_bit(bytes: &[u8]) -> bool {
    bytes[2] & 0x40 != 0
}

/// "All else zero" in bytes 1 and 2.
fn front_is_clean(bytes: &[u8]) -> bool {
    bytes[1] == 0 && bytes[2] & !0x43 == 0
}

fn pair(bytes: &[u8]) -> u32 {
    u32::from(bytes[0]) << 8 | u32::from(bytes[1])
}
