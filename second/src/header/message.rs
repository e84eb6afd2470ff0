//! Error messages as bytes (02, request A1).

/// What a device reports.
#[derive(Clone, Copy, Debug, PartialEq, Eq)]
pub enum Severity {
    Correctable,
    NonFatal,
    Fatal,
}

/// An error message; its tag says nothing and is not kept.
#[derive(Clone, Copy, Debug, PartialEq, Eq)]
pub struct Message {
    pub requester: u32,
    pub severity: Severity,
}

pub const MESSAGE_BYTES: usize = 16;
/// A message without data, routed to the root.
pub const MESSAGE_FIRST: u8 = 0x30;
/// The codes do not follow each other: 32 is none.
pub const CODE_CORRECTABLE: u8 = 0x30;
pub const CODE_NON_FATAL: u8 = 0x31;
pub const CODE_FATAL: u8 = 0x33;

/// "16 bytes, in hex 30, three zeros, requester ID, any tag, code 30, 31 or 33,
/// eight zeros"; nothing for any other bytes.
pub fn read_message(bytes: &[u8]) -> Option<Message> {
    let &[MESSAGE_FIRST, 0, 0, 0, high, low, _tag, code, 0, 0, 0, 0, 0, 0, 0, 0] = bytes else {
        return None;
    };
    let severity = match code {
        CODE_CORRECTABLE => Severity::Correctable,
        CODE_NON_FATAL => Severity::NonFatal,
        CODE_FATAL => Severity::Fatal,
        _ => return None,
    };
    Some(Message {
        requester: u32::from(high) << 8 | u32::from(low),
        severity,
    })
}
