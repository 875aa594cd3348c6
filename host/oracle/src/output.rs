//! The frame writer: frames one after another into a lent buffer. What it is handed follows the layout
//! and fits, as the calls ask for their buffers' sizes first, so it asks nothing.

use crate::bytes::{put_u16, put_u32};
use crate::frame::{Message, Token, MESSAGE, MESSAGE_LEN, TOKEN, TOKEN_LEN};
use crate::ring::RingNumber;

/// A buffer for frames, and how many of its bytes are written.
pub struct Output<'a> {
    buffer: &'a mut [u8],
    used: usize,
}

impl<'a> Output<'a> {
    pub fn new(buffer: &'a mut [u8]) -> Output<'a> {
        Output { buffer, used: 0 }
    }

    /// The output count.
    pub fn count(&self) -> u16 {
        self.used as u16
    }

    pub fn message(&mut self, message: &Message) {
        let frame = self.next_frame(MESSAGE_LEN + message.content.len());
        put_header(frame, MESSAGE, message.ring, message.representative);
        put_u16(frame, 10, message.sender);
        put_u32(frame, 12, message.number);
        put_u32(frame, 16, 0);
        put_u16(frame, 20, message.service);
        frame[MESSAGE_LEN..].copy_from_slice(message.content);
    }

    /// Writes a token, and gives the frame written.
    pub fn token(&mut self, token: &Token) -> &[u8] {
        let requests = token.requests.as_slice();
        let frame = self.next_frame(TOKEN_LEN + 4 * requests.len());
        put_header(frame, TOKEN, token.ring, token.representative);
        put_u16(frame, 10, token.addressee);
        put_u32(frame, 12, token.number.0);
        put_u32(frame, 16, token.highest);
        put_u32(frame, 20, token.aru);
        put_u16(frame, 24, token.blocker.unwrap_or(0));
        put_u16(frame, 26, token.round_count);
        put_u16(frame, 28, token.backlog);
        put_u16(frame, 30, requests.len() as u16);
        for (place, number) in requests.iter().enumerate() {
            put_u32(frame, TOKEN_LEN + 4 * place, *number);
        }
        frame
    }

    /// A frame that is written already.
    pub fn copy(&mut self, frame: &[u8]) {
        self.next_frame(frame.len()).copy_from_slice(frame);
    }

    /// The next bytes of the buffer.
    fn next_frame(&mut self, size: usize) -> &mut [u8] {
        let frame = &mut self.buffer[self.used..self.used + size];
        self.used += size;
        frame
    }
}

/// What every frame begins with.
fn put_header(frame: &mut [u8], kind: u16, ring: RingNumber, representative: u16) {
    put_u16(frame, 0, (frame.len() - 2) as u16);
    put_u16(frame, 2, kind);
    put_u32(frame, 4, ring.0);
    put_u16(frame, 8, representative);
}
