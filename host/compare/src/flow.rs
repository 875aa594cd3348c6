//! Flow control at a visit, reckoned once more for the coverage: what the backlog leaves to the station,
//! beside what the specification's steps 1 and 3 leave to it without the backlog.

use crate::frames;
use crate::layout::*;

const MOST_NEW: u32 = 8;
const MOST_IN_ROUND: u32 = 24;

pub struct Flow {
    /// The backlog on the token that was taken, and the own part of it.
    pub backlog: u16,
    pub own_part: u8,
    others_backlog: u32,
    /// Posts that waited before the visit and after it.
    waiting: u32,
    left: u32,
    /// New messages, and how many there would be without a backlog.
    new: u32,
    without_backlog: u32,
}

impl Flow {
    /// From the record before and after the visit and the token that was accepted.
    pub fn of(before: &[u8], token: &[u8], after: &[u8]) -> Flow {
        let backlog = get2(token, frames::BACKLOG);
        let (waiting, left) = (u32::from(before[POST_COUNT]), u32::from(after[POST_COUNT]));
        let repeats = u32::from(after[BROADCAST]) - (waiting - left);
        Flow {
            backlog,
            own_part: before[OWN_PART],
            others_backlog: u32::from(backlog.saturating_sub(before[OWN_PART].into())),
            waiting,
            left,
            new: waiting - left,
            without_backlog: allowance(before, token).saturating_sub(repeats).min(most_new(before, token)),
        }
    }

    pub fn is_limited_by_share(&self) -> bool {
        self.new < self.without_backlog
    }

    /// Posts wait, their share is 0, and one goes out all the same.
    pub fn has_no_share(&self) -> bool {
        self.new == 1 && MOST_IN_ROUND * self.waiting < self.others_backlog + self.waiting
    }

    pub fn is_backlog_cut(&self) -> bool {
        self.others_backlog + self.left > MOST_BACKLOG.into()
    }
}

/// Step 1 without the backlog.
fn allowance(before: &[u8], token: &[u8]) -> u32 {
    let others = u32::from(get2(token, frames::ROUND)).saturating_sub(before[BROADCAST].into());
    MOST_IN_ROUND.saturating_sub(others).min(MOST_NEW)
}

/// As many as the posts and the numbers permit.
fn most_new(before: &[u8], token: &[u8]) -> u32 {
    let last = MOST_NUMBER.min(get4(before, SAFE) + HELD_PLACES);
    last.saturating_sub(get4(token, frames::HIGHEST)).min(before[POST_COUNT].into())
}
