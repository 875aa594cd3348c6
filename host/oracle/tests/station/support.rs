//! Stations and frames for the tests. Every call made through here also checks what holds of all calls:
//! a refusal alters no byte and has no counts, bytes past a count are unaltered, and what is not refused
//! leaves the panel's byte equal to the count. A field that is changed through here takes that byte with it,
//! so that a test changes what it is about; who writes to `bytes` does not.

use oracle::layout::*;
use oracle::{arrive, found, post, resend, Answer, Refusal};

pub const RING_NUMBER: u32 = 4;
pub const FOUNDED: u16 = 1;
pub const POSTED: u16 = 2;
pub const KEPT: u16 = 3;
pub const HAD: u16 = 4;
pub const AHEAD: u16 = 5;
pub const ACCEPTED: u16 = 6;
pub const RESENT: u16 = 7;

/// What stands in output buffers before a call.
const FILL: u8 = 0xA5;

/// A call's answer with the frames within its counts.
pub struct Reply {
    pub answer: Answer,
    pub frames: Vec<Vec<u8>>,
    pub deliveries: Vec<Vec<u8>>,
}

impl Reply {
    /// The token written last.
    pub fn token(&self) -> &[u8] {
        assert_eq!(self.answer.refusal, 0);
        self.frames.last().expect("a token is written")
    }
}

#[derive(Clone)]
pub struct Station {
    pub bytes: Vec<u8>,
}

/// The ids as C hands them over.
pub fn list(ids: &[u16]) -> Vec<u8> {
    ids.iter().flat_map(|id| id.to_le_bytes()).collect()
}

impl Station {
    pub fn new(ids: &[u16], own: u16, ring: u32) -> (Station, Vec<u8>) {
        let mut bytes = vec![FILL; LEN];
        let mut token = vec![FILL; 40];
        let answer = found(&mut bytes, &list(ids), own, ring, &mut token);
        assert_eq!((answer.refusal, answer.outcome, answer.frames), (0, FOUNDED, 32));
        assert!(token[32..].iter().all(|byte| *byte == FILL));
        token.truncate(32);
        (Station { bytes }, token)
    }

    /// The trials' station: members 3, 7, 9; own id 7; fresh.
    pub fn fresh() -> Station {
        Station::new(&[3, 7, 9], 7, RING_NUMBER).0
    }

    /// The trials' station with all up to the level held.
    pub fn with_level(level: u32) -> Station {
        let mut station = Station::fresh();
        for number in 1..=level {
            station.hold(number, 3, 0, b"");
        }
        station.set_u32(LEVEL, level);
        station
    }

    /// The trials' station with all three marks at a number, and nothing held.
    pub fn with_marks(mark: u32) -> Station {
        let mut station = Station::fresh();
        for field in [LEVEL, SAFE, DELIVERED] {
            station.set_u32(field, mark);
        }
        station
    }

    pub fn set_u16(&mut self, at: usize, word: u16) {
        self.bytes[at..at + 2].copy_from_slice(&word.to_le_bytes());
        self.count();
    }

    pub fn set_u32(&mut self, at: usize, word: u32) {
        self.bytes[at..at + 4].copy_from_slice(&word.to_le_bytes());
        self.count();
    }

    /// The messages held and undelivered, counted number by number.
    pub fn undelivered(&self) -> u8 {
        let (safe, delivered) = (u64::from(self.u32(SAFE)), u64::from(self.u32(DELIVERED)));
        let held = |number: &u64| {
            let place = HELD_SENDERS + 2 * (*number as usize % 32);
            self.bytes[place..place + 2] != [0, 0]
        };
        (safe + 1..=safe + 32).filter(held).filter(|number| *number > delivered).count() as u8
    }

    /// Puts that count into the panel's byte.
    pub fn count(&mut self) {
        self.bytes[PANEL] = self.undelivered();
    }

    pub fn u32(&self, at: usize) -> u32 {
        u32::from_le_bytes(self.bytes[at..at + 4].try_into().unwrap())
    }

    /// Writes a message to its place; the level stays.
    pub fn hold(&mut self, number: u32, sender: u16, service: u16, content: &[u8]) {
        let place = number as usize % 32;
        self.set_u16(HELD_SENDERS + 2 * place, sender);
        self.set_u16(HELD_SERVICES + 2 * place, service);
        self.bytes[HELD_LENGTHS + place] = content.len() as u8;
        self.bytes[HELD_CONTENTS + 64 * place..][..content.len()].copy_from_slice(content);
    }

    pub fn post(&mut self, service: u16, content: &[u8]) -> Answer {
        let before = self.bytes.clone();
        let answer = post(&mut self.bytes, service, content);
        assert_eq!((answer.frames, answer.deliveries, answer.deaf), (0, 0, 0));
        self.check(&answer, &before);
        answer
    }

    pub fn arrive(&mut self, frame: &[u8]) -> Reply {
        let before = self.bytes.clone();
        let mut frames = vec![FILL; 1472];
        let mut deliveries = vec![FILL; 2752];
        let answer = arrive(&mut self.bytes, frame, &mut frames, &mut deliveries);
        self.check(&answer, &before);
        Reply {
            answer,
            frames: split(frames, answer.frames),
            deliveries: split(deliveries, answer.deliveries),
        }
    }

    pub fn resend(&self) -> Reply {
        let mut frames = vec![FILL; 1472];
        let answer = resend(&self.bytes, &mut frames);
        self.check(&answer, &self.bytes);
        Reply { answer, frames: split(frames, answer.frames), deliveries: Vec::new() }
    }

    /// Is the record whole? Resending asks it and alters nothing.
    pub fn is_whole(&self) -> bool {
        self.resend().answer.refusal != Refusal::NotWhole as u16
    }

    fn check(&self, answer: &Answer, before: &[u8]) {
        if answer.refusal == 0 {
            assert_eq!(self.bytes[PANEL], self.undelivered(), "the panel's byte, outcome {}", answer.outcome);
        } else {
            let rest = (answer.outcome, answer.frames, answer.deliveries, answer.deaf);
            assert_eq!(rest, (0, 0, 0, 0));
            assert_eq!(self.bytes, before, "refusal {} altered the record", answer.refusal);
        }
    }
}

/// Are two records the same? Names the first byte that differs.
pub fn assert_same(record: &[u8], expected: &[u8]) {
    assert_eq!(record.len(), expected.len());
    let differs = record.iter().zip(expected).position(|(one, other)| one != other);
    assert_eq!(differs, None, "the records differ at this byte");
}

/// The frames within a count; past it the buffer is as it was.
fn split(buffer: Vec<u8>, count: u16) -> Vec<Vec<u8>> {
    let (mut written, rest) = buffer.split_at(count.into());
    assert!(rest.iter().all(|byte| *byte == FILL), "bytes past the count are altered");
    let mut frames = Vec::new();
    while !written.is_empty() {
        let size = 2 + usize::from(u16::from_le_bytes([written[0], written[1]]));
        let (frame, others) = written.split_at(size);
        frames.push(frame.to_vec());
        written = others;
    }
    frames
}

/// A frame with its length in front.
fn frame_of(kind: u16, ring: u32, representative: u16, rest: &[u8]) -> Vec<u8> {
    let mut frame = ((rest.len() + 8) as u16).to_le_bytes().to_vec();
    frame.extend(kind.to_le_bytes());
    frame.extend(ring.to_le_bytes());
    frame.extend(representative.to_le_bytes());
    frame.extend(rest);
    frame
}

/// A message of the trials' ring.
pub fn message(number: u32, sender: u16, service: u16, content: &[u8]) -> Vec<u8> {
    let mut rest = sender.to_le_bytes().to_vec();
    rest.extend(number.to_le_bytes());
    rest.extend([0; 4]);
    rest.extend(service.to_le_bytes());
    rest.extend(content);
    frame_of(1, RING_NUMBER, 3, &rest)
}

/// A token of the trials' ring.
#[derive(Clone, PartialEq, Debug)]
pub struct Token {
    pub addressee: u16,
    pub number: u32,
    pub highest: u32,
    pub aru: u32,
    pub blocker: u16,
    pub round_count: u16,
    pub backlog: u16,
    pub requests: Vec<u32>,
}

impl Token {
    /// To the trials' station: number 1, everybody has everything.
    pub fn with_highest(highest: u32) -> Token {
        Token {
            addressee: 7,
            number: 1,
            highest,
            aru: highest,
            blocker: 0,
            round_count: 0,
            backlog: 0,
            requests: Vec::new(),
        }
    }

    pub fn frame(&self) -> Vec<u8> {
        let mut rest = self.addressee.to_le_bytes().to_vec();
        for number in [self.number, self.highest, self.aru] {
            rest.extend(number.to_le_bytes());
        }
        for word in [self.blocker, self.round_count, self.backlog, self.requests.len() as u16] {
            rest.extend(word.to_le_bytes());
        }
        rest.extend(self.requests.iter().flat_map(|number| number.to_le_bytes()));
        frame_of(2, RING_NUMBER, 3, &rest)
    }

    /// The token that a frame of the trials' ring carries.
    pub fn of(frame: &[u8]) -> Token {
        let word = |at: usize| u16::from_le_bytes([frame[at], frame[at + 1]]);
        let number = |at: usize| u32::from_le_bytes(frame[at..at + 4].try_into().unwrap());
        let token = Token {
            addressee: word(10),
            number: number(12),
            highest: number(16),
            aru: number(20),
            blocker: word(24),
            round_count: word(26),
            backlog: word(28),
            requests: (32..frame.len()).step_by(4).map(number).collect(),
        };
        assert_eq!(token.frame(), frame);
        token
    }
}

/// Numbers without order, the same in every run (xorshift).
pub struct Chance(u64);

impl Chance {
    pub fn new(seed: u64) -> Chance {
        Chance(seed.wrapping_mul(0x9E37_79B9_7F4A_7C15) | 1)
    }

    pub fn below(&mut self, bound: usize) -> usize {
        self.0 ^= self.0 << 13;
        self.0 ^= self.0 >> 7;
        self.0 ^= self.0 << 17;
        ((self.0 >> 32) as usize) % bound
    }
}
