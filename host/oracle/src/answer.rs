//! What a call answers: the specification's outcomes, and its 'Questions at the door' as refusals.

/// The question that is answered 'no'.
#[derive(Clone, Copy, PartialEq, Eq, Debug)]
#[repr(u16)]
pub enum Refusal {
    NoRoom = 1,
    NotWhole = 2,
    MemberCount = 3,
    BadIds = 4,
    NotAmong = 5,
    BadRing = 6,
    LongContent = 7,
    OtherService = 8,
    PostsFull = 9,
    WrongLength = 10,
    OtherKind = 11,
    Malformed = 12,
    OtherRing = 13,
    NotMember = 14,
    OtherAddressee = 15,
    OldToken = 16,
    LastToken = 17,
    BelowHeld = 18,
    NoLeave = 19,
}

impl Refusal {
    /// Goes on where the question is answered 'yes'.
    pub(crate) fn unless(self, yes: bool) -> Result<(), Refusal> {
        if yes {
            Ok(())
        } else {
            Err(self)
        }
    }
}

/// What happened at a call that was not refused.
#[derive(Clone, Copy, PartialEq, Eq, Debug)]
#[repr(u16)]
pub enum Outcome {
    Founded = 1,
    Posted = 2,
    Kept = 3,
    Had = 4,
    Ahead = 5,
    Accepted = 6,
    Resent = 7,
}

/// The answer as C sees it.
#[derive(Clone, Copy, PartialEq, Eq, Debug)]
#[repr(C)]
pub struct Answer {
    /// 0, or the question that is answered 'no'.
    pub refusal: u16,
    /// 0 with a refusal.
    pub outcome: u16,
    /// Bytes written for the cable.
    pub frames: u16,
    /// Bytes delivered.
    pub deliveries: u16,
    /// The id in the notice 'deaf', or 0.
    pub deaf: u16,
}

impl Answer {
    /// An outcome with nothing written.
    pub(crate) fn of(outcome: Outcome) -> Answer {
        Answer { refusal: 0, outcome: outcome as u16, frames: 0, deliveries: 0, deaf: 0 }
    }
}

impl From<Result<Answer, Refusal>> for Answer {
    fn from(result: Result<Answer, Refusal>) -> Answer {
        result.unwrap_or_else(|refusal| Answer {
            refusal: refusal as u16,
            outcome: 0,
            frames: 0,
            deliveries: 0,
            deaf: 0,
        })
    }
}
