//! Error messages and their queue (02, request A1; 004, words 148 and 154).

use super::words::*;
use super::Bridge;
use crate::answer::Answer;
use crate::header::{read_message, Message, Severity};
use std::collections::VecDeque;

/// "32 entries deep"
pub const QUEUE_DEPTH: usize = 32;

/// Oldest first. Words 148 and 154 are worked out from it, so that no second
/// copy can go wrong.
#[derive(Clone, Debug, Default, PartialEq, Eq)]
pub struct ErrorQueue {
    entries: VecDeque<Message>,
    overflowed: bool,
}

impl ErrorQueue {
    pub fn entries(&self) -> &VecDeque<Message> {
        &self.entries
    }

    pub fn is_empty(&self) -> bool {
        self.entries.is_empty()
    }

    pub fn overflowed(&self) -> bool {
        self.overflowed
    }

    /// "Overflow drops the newest, but sets its flag".
    fn add(&mut self, message: Message) {
        if self.entries.len() < QUEUE_DEPTH {
            self.entries.push_back(message);
        } else {
            self.overflowed = true;
        }
    }

    pub(super) fn remove_oldest(&mut self) {
        self.entries.pop_front();
    }

    /// A one written to the flag clears it, whatever the queue holds.
    pub(super) fn write_status(&mut self, ones: u32) {
        self.overflowed &= ones & OVERFLOW == 0;
    }

    /// Word 148.
    pub(super) fn status(&self) -> u32 {
        let bit = |holds: bool, bit: u32| if holds { bit } else { 0 };
        bit(!self.is_empty(), NOT_EMPTY) | bit(self.overflowed, OVERFLOW)
    }

    /// Word 154; "Arbitrary data in 004 is zero here", so all of it is 0 where
    /// nothing is queued.
    pub(super) fn oldest(&self) -> u32 {
        self.entries.front().map_or(0, |message| {
            message.requester | error_type(message.severity) << TYPE_SHIFT | VALID
        })
    }
}

/// 004, the error types of word 154.
fn error_type(severity: Severity) -> u32 {
    match severity {
        Severity::Correctable => 0b00,
        Severity::NonFatal => 0b01,
        Severity::Fatal => 0b10,
    }
}

/// 004, bits 9 to 11 of word 138.
fn decode_bit(severity: Severity) -> u32 {
    match severity {
        Severity::Correctable => BIT_CORRECTABLE,
        Severity::NonFatal => BIT_NON_FATAL,
        Severity::Fatal => BIT_FATAL,
    }
}

impl Bridge {
    /// Order: 12, 4. Nothing is lent, so there is no 8.
    pub fn message(&mut self, bytes: &[u8]) -> Answer {
        let Some(message) = read_message(bytes) else {
            return Answer::refused(12);
        };
        if !self.link_up {
            return Answer::refused(4);
        }
        // Also the message that overflow drops sets its bit.
        self.set_bit(decode_bit(message.severity));
        self.errors.add(message);
        Answer::accepted()
    }

    /// The decode bits that a written one clears now: "bits 9 to 11 only while
    /// the queue is empty".
    pub(super) fn clearable(&self) -> u32 {
        match self.errors.is_empty() {
            true => DECODE_BITS,
            false => DECODE_BITS & !ERROR_BITS,
        }
    }
}
