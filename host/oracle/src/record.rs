//! The station record: a typed view over the lent bytes, which reads and writes its fields in place.
//! Only a whole record has one (question 2), so the accessors ask nothing.

use std::ops::{Deref, DerefMut, Range};

use crate::answer::Refusal;
use crate::bytes::{put_u16, put_u32, u16_at, u32_at};
use crate::frame::{Message, TokenNumber, MOST_TOKEN_LEN};
use crate::held::Held;
use crate::layout::*;
use crate::ring::Ring;
use crate::whole;

/// A record that may be changed.
pub type Lent<'a> = Record<&'a mut [u8; LEN]>;

pub struct Record<B> {
    bytes: B,
    ring: Ring,
    held: Held,
}

impl<B: Deref<Target = [u8; LEN]>> Record<B> {
    /// Question 2: is the record whole?
    pub fn open(station: impl TryInto<B>) -> Result<Record<B>, Refusal> {
        let bytes: B = station.try_into().map_err(|_| Refusal::NotWhole)?;
        let (ring, held) = whole::read(&bytes).ok_or(Refusal::NotWhole)?;
        Ok(Record { bytes, ring, held })
    }

    pub fn ring(&self) -> &Ring {
        &self.ring
    }

    /// Which numbers are held.
    pub fn held(&self) -> &Held {
        &self.held
    }

    pub fn level(&self) -> u32 {
        u32_at(&*self.bytes, LEVEL)
    }

    pub fn safe(&self) -> u32 {
        u32_at(&*self.bytes, SAFE)
    }

    pub fn delivered(&self) -> u32 {
        u32_at(&*self.bytes, DELIVERED)
    }

    /// The aru forwarded last.
    pub fn aru(&self) -> u32 {
        u32_at(&*self.bytes, ARU)
    }

    /// The token number forwarded last.
    pub fn token_number(&self) -> TokenNumber {
        TokenNumber(u32_at(&*self.bytes, TOKEN_NUMBER))
    }

    /// How many messages were broadcast at the last visit.
    pub fn last_count(&self) -> u8 {
        self.bytes[LAST_COUNT]
    }

    pub fn stall(&self) -> u8 {
        self.bytes[STALL]
    }

    /// The own part of the backlog: how many posts waited here when the token was last forwarded.
    pub fn own_part(&self) -> u8 {
        self.bytes[OWN_PART]
    }

    /// The token that may be resent.
    pub fn remembered(&self) -> Option<&[u8]> {
        match self.bytes[TOKEN_SIZE] {
            0 => None,
            size => Some(&self.bytes[TOKEN..][..size.into()]),
        }
    }

    /// How many posts wait.
    pub fn posts(&self) -> usize {
        self.bytes[POST_COUNT].into()
    }

    /// The message with this number, which is held.
    pub fn message(&self, number: u32) -> Message<'_> {
        let place = place_of(number);
        Message {
            ring: self.ring.number,
            representative: self.ring.representative(),
            sender: u16_at(&*self.bytes, HELD_SENDERS + 2 * place),
            number,
            service: u16_at(&*self.bytes, HELD_SERVICES + 2 * place),
            content: &self.bytes[held_content(place)][..self.bytes[HELD_LENGTHS + place].into()],
        }
    }
}

impl<B: DerefMut<Target = [u8; LEN]>> Record<B> {
    pub fn set_delivered(&mut self, number: u32) {
        put_u32(&mut *self.bytes, DELIVERED, number);
    }

    /// The panel's byte: how many messages are held and undelivered. Every call that changes what is held or
    /// delivered ends with it.
    pub fn show_undelivered(&mut self) {
        self.bytes[PANEL] = self.held.count_above(self.delivered());
    }

    pub fn set_stall(&mut self, count: u8) {
        self.bytes[STALL] = count;
    }

    pub fn set_last_count(&mut self, count: u8) {
        self.bytes[LAST_COUNT] = count;
    }

    pub fn set_own_part(&mut self, count: u8) {
        self.bytes[OWN_PART] = count;
    }

    /// The aru of the token that is forwarded now.
    pub fn push_aru(&mut self, aru: u32) {
        let before = self.aru();
        put_u32(&mut *self.bytes, ARU_BEFORE, before);
        put_u32(&mut *self.bytes, ARU, aru);
    }

    /// The token that is forwarded now: its number is remembered, and it may be resent.
    pub fn remember(&mut self, number: TokenNumber, frame: &[u8]) {
        put_u32(&mut *self.bytes, TOKEN_NUMBER, number.0);
        self.bytes[TOKEN_SIZE] = frame.len() as u8;
        let (used, unused) = self.bytes[TOKEN..][..MOST_TOKEN_LEN].split_at_mut(frame.len());
        used.copy_from_slice(frame);
        unused.fill(0);
    }

    /// The leave to resend ends.
    pub fn forget_token(&mut self) {
        self.bytes[TOKEN_SIZE..][..1 + MOST_TOKEN_LEN].fill(0);
    }

    /// Holds a message whose place is free; the level rises as far as it can.
    pub fn hold(&mut self, number: u32, sender: u16, service: u16, content: &[u8]) {
        let place = place_of(number);
        self.set_held(number, sender, service, content.len() as u8);
        self.bytes[held_content(place)][..content.len()].copy_from_slice(content);
    }

    /// Holds the post at a place as an own message with this number, whose place is free; the level
    /// rises as far as it can.
    pub fn hold_post(&mut self, number: u32, post: usize) {
        let service = u16_at(&*self.bytes, POST_SERVICES + 2 * post);
        self.set_held(number, self.ring.own, service, self.bytes[POST_LENGTHS + post]);
        self.bytes.copy_within(post_contents(post..post + 1), held_content(place_of(number)).start);
    }

    fn set_held(&mut self, number: u32, sender: u16, service: u16, length: u8) {
        let place = place_of(number);
        put_u16(&mut *self.bytes, HELD_SENDERS + 2 * place, sender);
        put_u16(&mut *self.bytes, HELD_SERVICES + 2 * place, service);
        self.bytes[HELD_LENGTHS + place] = length;
        self.held.add(number);
        put_u32(&mut *self.bytes, LEVEL, self.held.level());
    }

    /// The safe mark rises; what is held up to it is let go.
    pub fn let_go(&mut self, safe: u32) {
        for number in self.safe() + 1..=safe {
            let place = place_of(number);
            self.bytes[HELD_SENDERS + 2 * place..][..2].fill(0);
            self.bytes[HELD_SERVICES + 2 * place..][..2].fill(0);
            self.bytes[HELD_LENGTHS + place] = 0;
            self.bytes[held_content(place)].fill(0);
        }
        self.held.let_go(safe);
        put_u32(&mut *self.bytes, SAFE, safe);
    }

    /// One more post waits; there is a place for it.
    pub fn push_post(&mut self, service: u16, content: &[u8]) {
        let post = self.posts();
        put_u16(&mut *self.bytes, POST_SERVICES + 2 * post, service);
        self.bytes[POST_LENGTHS + post] = content.len() as u8;
        self.bytes[post_contents(post..post + 1)][..content.len()].copy_from_slice(content);
        self.bytes[POST_COUNT] += 1;
    }

    /// The oldest posts wait no longer; the others move down.
    pub fn drop_posts(&mut self, count: usize) {
        let all = self.posts();
        move_down(&mut self.bytes[POST_SERVICES..][..2 * all], 2 * count);
        move_down(&mut self.bytes[POST_LENGTHS..][..all], count);
        move_down(&mut self.bytes[post_contents(0..all)], MOST_CONTENT * count);
        self.bytes[POST_COUNT] = (all - count) as u8;
    }
}

/// Drops the first bytes: the rest moves down, zero comes after it.
fn move_down(bytes: &mut [u8], dropped: usize) {
    let left = bytes.len() - dropped;
    bytes.copy_within(dropped.., 0);
    bytes[left..].fill(0);
}

fn place_of(number: u32) -> usize {
    number as usize % WINDOW
}

fn held_content(place: usize) -> Range<usize> {
    let start = HELD_CONTENTS + MOST_CONTENT * place;
    start..start + MOST_CONTENT
}

fn post_contents(posts: Range<usize>) -> Range<usize> {
    POST_CONTENTS + MOST_CONTENT * posts.start..POST_CONTENTS + MOST_CONTENT * posts.end
}
