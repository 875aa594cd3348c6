//! Frames of the ring: where each field stands, and how one is written.

use crate::layout::{get2, get4, put2};

pub const LENGTH: usize = 0;
pub const KIND: usize = 2;
pub const RING: usize = 4;
pub const REPRESENTATIVE: usize = 8;
/// A message's sender, a token's addressee.
pub const WHO: usize = 10;
/// A message's or a token's number.
pub const NUMBER: usize = 12;
pub const CONFIGURATION: usize = 16;
pub const SERVICE: usize = 20;
pub const CONTENT: usize = 22;
pub const HIGHEST: usize = 16;
pub const ARU: usize = 20;
pub const BLOCKER: usize = 24;
pub const ROUND: usize = 26;
pub const BACKLOG: usize = 28;
pub const REQUEST_COUNT: usize = 30;
pub const REQUESTS: usize = 32;

pub const MESSAGE: u16 = 1;
pub const TOKEN: u16 = 2;

/// What is in every frame of one ring.
#[derive(Clone, Copy)]
pub struct Ring {
    pub number: u32,
    pub representative: u16,
}

impl Ring {
    fn begin(self, kind: u16, who: u16, number: u32) -> Vec<u8> {
        let mut frame = vec![0; 2];
        frame.extend(kind.to_le_bytes());
        frame.extend(self.number.to_le_bytes());
        frame.extend(self.representative.to_le_bytes());
        frame.extend(who.to_le_bytes());
        frame.extend(number.to_le_bytes());
        frame
    }

    pub fn message(self, sender: u16, number: u32, service: u16, content: &[u8]) -> Vec<u8> {
        let mut frame = self.begin(MESSAGE, sender, number);
        frame.extend([0; 4]);
        frame.extend(service.to_le_bytes());
        frame.extend(content);
        put_length(&mut frame);
        frame
    }

    pub fn token(self, token: &Token) -> Vec<u8> {
        let mut frame = self.begin(TOKEN, token.addressee, token.number);
        frame.extend(token.highest.to_le_bytes());
        frame.extend(token.aru.to_le_bytes());
        frame.extend(token.blocker.to_le_bytes());
        frame.extend(token.round.to_le_bytes());
        frame.extend(token.backlog.to_le_bytes());
        frame.extend((token.requests.len() as u16).to_le_bytes());
        for request in &token.requests {
            frame.extend(request.to_le_bytes());
        }
        put_length(&mut frame);
        frame
    }
}

pub struct Token {
    pub addressee: u16,
    pub number: u32,
    pub highest: u32,
    pub aru: u32,
    /// 0 is nobody.
    pub blocker: u16,
    pub round: u16,
    pub backlog: u16,
    pub requests: Vec<u32>,
}

/// Writes the length field of a frame that has one, as it is for its bytes.
pub fn put_length(frame: &mut [u8]) {
    if frame.len() >= 2 {
        put2(frame, LENGTH, (frame.len() - 2) as u16);
    }
}

pub fn is_token(frame: &[u8]) -> bool {
    frame.len() >= REQUESTS && get2(frame, KIND) == TOKEN
}

pub fn number(frame: &[u8]) -> u32 {
    get4(frame, NUMBER)
}

/// The frames in the bytes that a station wrote, one after another.
pub fn split(mut bytes: &[u8]) -> Vec<Vec<u8>> {
    let mut frames = Vec::new();
    while bytes.len() > 2 {
        let size = 2 + usize::from(get2(bytes, LENGTH));
        let (frame, rest) = bytes.split_at(size.min(bytes.len()));
        frames.push(frame.to_vec());
        bytes = rest;
    }
    frames
}
