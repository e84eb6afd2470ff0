//! What a call answers (01, the refusal table).

/// The AXI response that a call or a release reports.
#[derive(Clone, Copy, Debug, PartialEq, Eq)]
pub enum Response {
    None,
    Okay,
    Slverr,
    Decerr,
    Wait,
}

/// Number, response, slot, sent length, data word and session number.
#[derive(Clone, Copy, Debug, PartialEq, Eq)]
pub struct Answer {
    pub number: u32,
    pub response: Response,
    pub slot: u32,
    pub sent: u32,
    pub data: u32,
    /// The life of the link to which a taken answer belongs (02, request A2); 0
    /// in every answer but an accepted release's.
    pub session: u32,
}

impl Answer {
    /// "A refused call reports sent length, slot and data word 0, and response
    /// 'none' where its row names neither an AXI response nor 'wait'." 02:
    /// "Refused calls report it ... as 0", the session number.
    pub fn refused(number: u32) -> Answer {
        let response = match number {
            2 | 9 => Response::Decerr,
            3 | 4 | 10 | 11 | 15 => Response::Slverr,
            5..=7 => Response::Wait,
            _ => Response::None,
        };
        Answer {
            number,
            response,
            slot: 0,
            sent: 0,
            data: 0,
            session: 0,
        }
    }

    /// An accepted call that has nothing to say: completion, tick, link.
    pub fn accepted() -> Answer {
        Answer {
            number: 0,
            response: Response::None,
            slot: 0,
            sent: 0,
            data: 0,
            session: 0,
        }
    }
}
