//! What a call answers.

#[derive(Clone, Copy, Debug, Default, PartialEq, Eq)]
#[repr(u8)]
pub enum Response {
    Okay = 0,
    Slverr = 2,
    Decerr = 3,
    #[default]
    None = 4,
    Wait = 5,
}

#[derive(Clone, Copy, Debug, Default, PartialEq, Eq)]
pub struct Answer {
    pub number: u32,
    pub response: Response,
    pub slot: u32,
    pub sent: u32,
    pub data: u32,
    pub session: u32,
}

impl Answer {
    /// An accepted call that has nothing to say.
    pub const DONE: Answer = Answer {
        number: 0,
        response: Response::None,
        slot: 0,
        sent: 0,
        data: 0,
        session: 0,
    };

    #[inline]
    pub const fn refused(number: u32) -> Answer {
        let response = match number {
            2 | 9 => Response::Decerr,
            3 | 4 | 10 | 11 | 15 => Response::Slverr,
            5..=7 => Response::Wait,
            _ => Response::None,
        };
        Answer {
            number,
            response,
            ..Answer::DONE
        }
    }

    /// The row of a replay: the event's name, number, response, slot, sent
    /// length, data word, session.
    #[inline]
    pub const fn row(&self, name: u64) -> [u64; 7] {
        [
            name,
            self.number as u64,
            self.response as u64,
            self.slot as u64,
            self.sent as u64,
            self.data as u64,
            self.session as u64,
        ]
    }
}
