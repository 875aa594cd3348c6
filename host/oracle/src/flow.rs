//! Flow control: how many messages a visit may broadcast, by what the others broadcast in the last round and
//! by what waits with them, and what the forwarded token says of both.

use crate::frame::{Token, MOST_BACKLOG, MOST_ROUND_COUNT};
use crate::record::Lent;

/// The most new messages of one visit, and of all stations in a round.
const MOST_NEW: usize = 8;
const MOST_IN_ROUND: usize = 24;

/// What a token says of the other stations: its counts less this station's own parts of them.
pub struct Others {
    /// What they broadcast in the last round.
    count: usize,
    /// What waited with them when each last forwarded.
    backlog: usize,
}

impl Others {
    pub fn of(record: &Lent, token: &Token) -> Others {
        Others {
            count: usize::from(token.round_count).saturating_sub(record.last_count().into()),
            backlog: usize::from(token.backlog).saturating_sub(record.own_part().into()),
        }
    }

    /// How many messages may be broadcast now, with so many posts waiting here. Where none waits, only the
    /// round limits it.
    pub fn allowance(&self, waiting: usize) -> usize {
        let allowance = MOST_IN_ROUND.saturating_sub(self.count).min(MOST_NEW);
        if waiting == 0 {
            allowance
        } else {
            allowance.min(self.share(waiting))
        }
    }

    /// The round's messages in proportion to what waits here, of all that waits; at least one.
    fn share(&self, waiting: usize) -> usize {
        (MOST_IN_ROUND * waiting / (self.backlog + waiting)).max(1)
    }

    /// The round count that goes on, after so many broadcasts here.
    pub fn round_count(&self, broadcasts: usize) -> u16 {
        (self.count + broadcasts).min(MOST_ROUND_COUNT.into()) as u16
    }

    /// The backlog that goes on, with so many posts left here.
    pub fn backlog(&self, waiting: usize) -> u16 {
        (self.backlog + waiting).min(MOST_BACKLOG.into()) as u16
    }
}
