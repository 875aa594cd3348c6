//! The ring as a station knows it: its number, its members and which of them it is itself. The founding
//! questions 3 to 6, and 13 and 14, which every frame is asked.

use crate::answer::Refusal;
use crate::bytes::u16_at;
use crate::frame::{is_number, Frame};
use crate::layout::MOST_MEMBERS;

/// A ring's number, no counter of messages or tokens.
#[derive(Clone, Copy, PartialEq, Eq)]
pub struct RingNumber(pub u32);

#[derive(Clone, Copy)]
pub struct Ring {
    pub number: RingNumber,
    pub own: u16,
    count: usize,
    /// In circulation order; places past the count are 0, which is no id.
    ids: [u16; MOST_MEMBERS],
}

impl Ring {
    /// Questions 3 to 6 of a list of ids with 2 bytes each, the own id and the ring's number.
    pub fn new(list: &[u8], own: u16, number: u32) -> Result<Ring, Refusal> {
        let count = list.len() / 2;
        Refusal::MemberCount.unless(list.len().is_multiple_of(2) && (2..=MOST_MEMBERS).contains(&count))?;
        let mut ids = [0; MOST_MEMBERS];
        for (place, id) in ids[..count].iter_mut().enumerate() {
            *id = u16_at(list, 2 * place);
        }
        Refusal::BadIds.unless(are_ids(&ids[..count]))?;
        Refusal::NotAmong.unless(ids[..count].contains(&own))?;
        Refusal::BadRing.unless(is_number(number))?;
        Ok(Ring { number: RingNumber(number), own, count, ids })
    }

    /// The members' ids in circulation order.
    pub fn ids(&self) -> &[u16] {
        &self.ids[..self.count]
    }

    pub fn representative(&self) -> u16 {
        self.ids[0]
    }

    /// Is this a member's id? Looks at all places, which is faster than as many as there are members.
    #[inline]
    pub fn has(&self, id: u16) -> bool {
        id != 0 && self.ids.iter().fold(false, |any, member| any | (*member == id))
    }

    /// The member after oneself.
    pub fn next(&self) -> u16 {
        let ids = self.ids();
        let own = ids.iter().position(|id| *id == self.own);
        own.and_then(|own| ids.get(own + 1)).copied().unwrap_or(ids[0])
    }

    /// Question 13: is it this ring's number and representative? 14: is every id in it a member's?
    pub fn ask(&self, frame: &Frame) -> Result<(), Refusal> {
        let (number, representative, ids) = match frame {
            Frame::Message(message) => (message.ring, message.representative, [Some(message.sender), None]),
            Frame::Token(token) => (token.ring, token.representative, [Some(token.addressee), token.blocker]),
        };
        Refusal::OtherRing.unless(number == self.number && representative == self.representative())?;
        Refusal::NotMember.unless(ids.into_iter().flatten().all(|id| self.has(id)))
    }
}

/// Question 4: non-zero, distinct, the lowest first.
fn are_ids(ids: &[u16]) -> bool {
    ids[0] != 0
        && ids[1..].iter().all(|id| *id > ids[0])
        && (1..ids.len()).all(|place| !ids[..place].contains(&ids[place]))
}
