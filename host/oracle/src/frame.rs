//! The frame reader: the specification's 'Frames', and its questions 10 to 12.

use crate::answer::Refusal;
use crate::bytes::{u16_at, u32_at};
use crate::layout::{MOST_CONTENT, MOST_NUMBER};
use crate::ring::RingNumber;

pub const MESSAGE: u16 = 1;
pub const TOKEN: u16 = 2;

/// Bytes of the part that both kinds begin with, of a message without content, of a token without
/// requests, of the longest token.
const HEADER_LEN: usize = 10;
pub const MESSAGE_LEN: usize = 22;
pub const TOKEN_LEN: usize = 32;
pub const MOST_TOKEN_LEN: usize = TOKEN_LEN + 4 * MOST_REQUESTS;

pub const MOST_REQUESTS: usize = 16;
pub const MOST_ROUND_COUNT: u16 = 128;
pub const MOST_BACKLOG: u16 = 128;

/// Services of a message.
pub const AGREED: u16 = 0;
pub const SAFE: u16 = 1;

/// A token's number, no counter of messages or rings.
#[derive(Clone, Copy, PartialEq, Eq, PartialOrd, Ord)]
pub struct TokenNumber(pub u32);

pub enum Frame<'a> {
    Message(Message<'a>),
    Token(Token),
}

#[derive(Clone, Copy)]
pub struct Message<'a> {
    pub ring: RingNumber,
    pub representative: u16,
    pub sender: u16,
    pub number: u32,
    pub service: u16,
    pub content: &'a [u8],
}

pub struct Token {
    pub ring: RingNumber,
    pub representative: u16,
    pub addressee: u16,
    pub number: TokenNumber,
    /// The highest message number (the paper's seq).
    pub highest: u32,
    pub aru: u32,
    /// The member that keeps aru back (the paper's aru_id), or nobody.
    pub blocker: Option<u16>,
    /// Messages broadcast in the last round (the paper's fcc).
    pub round_count: u16,
    /// Posts that waited at all stations when each last forwarded.
    pub backlog: u16,
    pub requests: Requests,
}

/// The message numbers that are asked for (the paper's rtr), in list order.
#[derive(Clone, Copy, Default)]
pub struct Requests {
    list: [u32; MOST_REQUESTS],
    count: usize,
}

impl Requests {
    pub fn as_slice(&self) -> &[u32] {
        &self.list[..self.count]
    }

    pub fn is_full(&self) -> bool {
        self.count == MOST_REQUESTS
    }

    /// One more at the end; the list is not full.
    pub fn push(&mut self, number: u32) {
        self.list[self.count] = number;
        self.count += 1;
    }

    /// Strikes off the numbers that `stays` denies; it is asked once of each, in list order.
    pub fn retain(&mut self, mut stays: impl FnMut(u32) -> bool) {
        let all = *self;
        self.count = 0;
        for number in all.as_slice() {
            if stays(*number) {
                self.push(*number);
            }
        }
    }
}

/// Is it a ring, message or token number?
pub fn is_number(number: u32) -> bool {
    (1..=MOST_NUMBER).contains(&number)
}

/// Is it a service?
pub fn is_service(service: u16) -> bool {
    service == AGREED || service == SAFE
}

/// Questions 10 to 12 of a frame.
pub fn read(frame: &[u8]) -> Result<Frame<'_>, Refusal> {
    Refusal::WrongLength.unless(frame.len() >= HEADER_LEN)?;
    Refusal::WrongLength.unless(usize::from(u16_at(frame, 0)) == frame.len() - 2)?;
    match u16_at(frame, 2) {
        MESSAGE => read_message(frame).map(Frame::Message),
        TOKEN => read_token(frame).map(Frame::Token),
        _ => return Err(Refusal::OtherKind),
    }
    .ok_or(Refusal::Malformed)
}

/// Question 12 of a message.
fn read_message(frame: &[u8]) -> Option<Message<'_>> {
    let (fixed, content) = frame.split_first_chunk::<MESSAGE_LEN>()?;
    let (ring, representative) = read_ring(fixed)?;
    let message = Message {
        ring,
        representative,
        sender: u16_at(fixed, 10),
        number: u32_at(fixed, 12),
        service: u16_at(fixed, 20),
        content,
    };
    let configuration = u32_at(fixed, 16);
    let follows = message.sender != 0
        && is_number(message.number)
        && configuration == 0
        && is_service(message.service)
        && content.len() <= MOST_CONTENT;
    follows.then_some(message)
}

/// Question 12 of a token.
fn read_token(frame: &[u8]) -> Option<Token> {
    let (fixed, list) = frame.split_first_chunk::<TOKEN_LEN>()?;
    let (ring, representative) = read_ring(fixed)?;
    let highest = u32_at(fixed, 16);
    let blocker = u16_at(fixed, 24);
    let token = Token {
        ring,
        representative,
        addressee: u16_at(fixed, 10),
        number: TokenNumber(u32_at(fixed, 12)),
        highest,
        aru: u32_at(fixed, 20),
        blocker: (blocker != 0).then_some(blocker),
        round_count: u16_at(fixed, 26),
        backlog: u16_at(fixed, 28),
        requests: read_requests(list, u16_at(fixed, 30).into(), highest)?,
    };
    let follows = token.addressee != 0
        && is_number(token.number.0)
        && highest <= MOST_NUMBER
        && token.aru <= highest
        && token.blocker.is_none() == (token.aru == highest)
        && token.round_count <= MOST_ROUND_COUNT
        && token.backlog <= MOST_BACKLOG;
    follows.then_some(token)
}

/// The ring number and the representative of any frame.
fn read_ring(fixed: &[u8]) -> Option<(RingNumber, u16)> {
    let number = u32_at(fixed, 4);
    let representative = u16_at(fixed, 8);
    (is_number(number) && representative != 0).then_some((RingNumber(number), representative))
}

/// As many requests as the token says: each up to the highest, none twice.
fn read_requests(list: &[u8], count: usize, highest: u32) -> Option<Requests> {
    if count > MOST_REQUESTS || list.len() != 4 * count {
        return None;
    }
    let mut requests = Requests::default();
    for place in 0..count {
        let number = u32_at(list, 4 * place);
        if number == 0 || number > highest || requests.as_slice().contains(&number) {
            return None;
        }
        requests.push(number);
    }
    Some(requests)
}
