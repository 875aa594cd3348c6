//! Question 2: the specification's 'Whole means', with docs/RECORD.md's list of what that is.

use crate::bytes::{all_zero, u16_at, u32_at};
use crate::frame::{self, is_service, Frame, MOST_TOKEN_LEN};
use crate::held::Held;
use crate::layout::*;
use crate::ring::Ring;

/// The ring and the held numbers of a whole record.
pub fn read(bytes: &[u8; LEN]) -> Option<(Ring, Held)> {
    let ring = read_ring(bytes)?;
    let held = read_held(bytes, &ring)?;
    let whole = are_marks(bytes, &held) && is_token(bytes, &ring) && are_posts(bytes);
    whole.then_some((ring, held))
}

/// The founding questions 3 to 6 hold, and places past the members are zero.
fn read_ring(bytes: &[u8; LEN]) -> Option<Ring> {
    let (list, unused) =
        bytes[MEMBERS..][..2 * MOST_MEMBERS].split_at_checked(2 * usize::from(bytes[MEMBER_COUNT]))?;
    let ring = Ring::new(list, u16_at(bytes, OWN), u32_at(bytes, RING)).ok()?;
    all_zero(unused).then_some(ring)
}

/// Held messages are in range, their senders members; free places and bytes past a content are zero.
fn read_held(bytes: &[u8; LEN], ring: &Ring) -> Option<Held> {
    let (contents, _) = bytes[HELD_CONTENTS..][..MOST_CONTENT * WINDOW].as_chunks::<MOST_CONTENT>();
    let mut places = 0;
    let mut whole = true;
    for (place, content) in contents.iter().enumerate() {
        let sender = u16_at(bytes, HELD_SENDERS + 2 * place);
        let service = u16_at(bytes, HELD_SERVICES + 2 * place);
        let length = bytes[HELD_LENGTHS + place];
        whole &=
            if sender == 0 { service == 0 && length == 0 } else { ring.has(sender) && is_service(service) };
        whole &= is_content(content, length);
        places |= u32::from(sender != 0) << place;
    }
    let safe = u32_at(bytes, SAFE);
    (whole && safe <= MOST_NUMBER).then(|| Held::new(safe, places))
}

/// The marks and numbers are in range and in order, and the level fits what is held: no number held is
/// above the range, and so neither is a mark. The panel's byte is the count of what is held above the
/// delivered mark.
fn are_marks(bytes: &[u8; LEN], held: &Held) -> bool {
    let level = u32_at(bytes, LEVEL);
    let delivered = u32_at(bytes, DELIVERED);
    u32_at(bytes, SAFE) <= delivered
        && delivered <= level
        && level == held.level()
        && held.highest() <= MOST_NUMBER
        && bytes[PANEL] == held.count_above(delivered)
        && u32_at(bytes, ARU) <= level
        && u32_at(bytes, ARU_BEFORE) <= level
        && u32_at(bytes, TOKEN_NUMBER) <= MOST_NUMBER
        && bytes[LAST_COUNT] <= MOST_BROADCAST
        && usize::from(bytes[OWN_PART]) <= MOST_POSTS
}

/// The token that may be resent is a token of this ring; the bytes past it, or all without leave, are
/// zero.
fn is_token(bytes: &[u8; LEN], ring: &Ring) -> bool {
    let room = &bytes[TOKEN..][..MOST_TOKEN_LEN];
    let Some((token, unused)) = room.split_at_checked(bytes[TOKEN_SIZE].into()) else {
        return false;
    };
    all_zero(unused) && (token.is_empty() || is_token_of(token, ring))
}

/// Kind 2, and 10 to 14 are answered 'yes'.
fn is_token_of(token: &[u8], ring: &Ring) -> bool {
    frame::read(token).is_ok_and(|frame| matches!(frame, Frame::Token(_)) && ring.ask(&frame).is_ok())
}

/// Waiting posts are in range; places past them and bytes past a content are zero.
fn are_posts(bytes: &[u8; LEN]) -> bool {
    let count = usize::from(bytes[POST_COUNT]);
    if count > MOST_POSTS {
        return false;
    }
    let (contents, _) = bytes[POST_CONTENTS..].as_chunks::<MOST_CONTENT>();
    let waiting = contents[..count].iter().enumerate().all(|(post, content)| {
        is_service(u16_at(bytes, POST_SERVICES + 2 * post)) && is_content(content, bytes[POST_LENGTHS + post])
    });
    waiting
        && all_zero(&bytes[POST_SERVICES + 2 * count..POST_LENGTHS])
        && all_zero(&bytes[POST_LENGTHS + count..POST_CONTENTS])
        && all_zero(contents[count..].as_flattened())
}

/// At most 64 bytes, and the bytes past them zero. Looks at all 64, so that it runs over many at a time.
#[inline]
fn is_content(content: &[u8; MOST_CONTENT], length: u8) -> bool {
    let past = |(byte, place): (&u8, &u8)| if *place >= length { *byte } else { 0 };
    let any_past = content.iter().zip(&PLACES).map(past).fold(0, |any, byte| any | byte);
    usize::from(length) <= MOST_CONTENT && any_past == 0
}

/// The numbers from 0 to 63.
const PLACES: [u8; MOST_CONTENT] = {
    let mut places = [0; MOST_CONTENT];
    let mut place = 0;
    while place < MOST_CONTENT {
        places[place] = place as u8;
        place += 1;
    }
    places
};
