//! A call as a value: all that is lent to it but the record's bytes.

use crate::layout::{DELIVERIES_LEN, FRAMES_LEN, RECORD_LEN, TOKEN_LEN};

#[derive(Clone, Copy, PartialEq, Eq, Debug)]
pub enum Ask {
    Found { own: u16, ring: u32 },
    Post { service: u16 },
    Arrive,
    Resend,
}

impl Ask {
    pub const NAMES: [&'static str; 4] = ["found", "post", "arrive", "resend"];

    pub fn place(self) -> usize {
        match self {
            Ask::Found { .. } => 0,
            Ask::Post { .. } => 1,
            Ask::Arrive => 2,
            Ask::Resend => 3,
        }
    }

    /// The questions that it asks.
    pub fn questions(self) -> &'static [u16] {
        match self {
            Ask::Found { .. } => &[1, 3, 4, 5, 6],
            Ask::Post { .. } => &[2, 7, 8, 9],
            Ask::Arrive => &[1, 2, 10, 11, 12, 13, 14, 15, 16, 17, 18],
            Ask::Resend => &[1, 2, 19],
        }
    }

    /// The lengths that it asks of its buffers for frames and for deliveries; 0 where it has none.
    pub fn rooms(self) -> (usize, usize) {
        match self {
            Ask::Found { .. } => (TOKEN_LEN, 0),
            Ask::Post { .. } => (0, 0),
            Ask::Arrive => (FRAMES_LEN, DELIVERIES_LEN),
            Ask::Resend => (FRAMES_LEN, 0),
        }
    }
}

#[derive(Clone, PartialEq, Eq)]
pub struct Call {
    pub ask: Ask,
    /// The members, the content or the frame.
    pub input: Vec<u8>,
    pub record_len: usize,
    /// Of the buffer for frames; of founding, of the one for the token.
    pub frames_len: usize,
    pub deliveries_len: usize,
    /// Chooses the bytes around the buffers and in them, and whether an empty one is lent as NULL.
    pub noise: u16,
}

impl Call {
    /// With buffers of just the lengths that it asks.
    pub fn new(ask: Ask, input: Vec<u8>, noise: u16) -> Call {
        let (frames_len, deliveries_len) = ask.rooms();
        Call { ask, input, record_len: RECORD_LEN, frames_len, deliveries_len, noise }
    }

    pub fn lends_null(&self) -> bool {
        self.noise % 2 == 1
    }
}
