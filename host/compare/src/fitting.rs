//! Frames that fit a record: tokens and messages around its marks.

use crate::chance::Chance;
use crate::choices;
use crate::frames::Token;
use crate::layout::*;
use crate::whole::{self, is_held};

pub fn frame(chance: &mut Chance, record: &[u8]) -> Vec<u8> {
    if chance.one_in(2) {
        token(chance, record)
    } else {
        message(chance, record)
    }
}

/// A message from just below the safe mark to just above what can be held.
pub fn message(chance: &mut Chance, record: &[u8]) -> Vec<u8> {
    let (safe, level) = (get4(record, SAFE), get4(record, LEVEL));
    let number = match chance.below(4) {
        // The gap above the level: all that is held above it follows.
        0 | 1 => level + 1,
        2 => safe.saturating_sub(2) + chance.below(HELD_PLACES + 5),
        _ => whole::greatest_place(record) + chance.below(3),
    };
    let sender = chance.pick(&whole::members(record));
    let content = choices::content(chance);
    let service = chance.below(2) as u16;
    whole::ring(record).message(sender, number.clamp(1, MOST_NUMBER), service, &content)
}

/// A token, for the most part one that is accepted.
pub fn token(chance: &mut Chance, record: &[u8]) -> Vec<u8> {
    let ids = whole::members(record);
    let own = get2(record, OWN);
    let highest = highest(chance, record);
    let aru = aru(chance, record, highest);
    let other = chance.pick(&ids);
    let blocker = match aru == highest {
        true => 0,
        false => chance.pick(&[own, other]),
    };
    let addressee = if chance.one_in(30) { other } else { own };
    whole::ring(record).token(&Token {
        addressee,
        number: token_number(chance, record),
        highest,
        aru,
        blocker,
        round: round(chance, record),
        backlog: backlog(chance, record),
        requests: requests(chance, record, highest),
    })
}

fn token_number(chance: &mut Chance, record: &[u8]) -> u32 {
    let last = get4(record, TOKEN_NUMBER);
    let number = match chance.below(16) {
        0 => last,
        1 => last.saturating_sub(1),
        2 => MOST_NUMBER - chance.below(2),
        3 => last.saturating_add(chance.below(1000)),
        _ => last + 1,
    };
    number.clamp(1, MOST_NUMBER)
}

fn highest(chance: &mut Chance, record: &[u8]) -> u32 {
    let greatest = whole::greatest(record);
    let end = get4(record, SAFE) + HELD_PLACES;
    let highest = match chance.below(10) {
        0..=2 => greatest,
        3 => greatest + 1,
        4 => greatest + chance.below(20),
        5 => greatest.max(end - chance.below(10)),
        6 => greatest.max(end + chance.below(20)),
        7 => MOST_NUMBER - chance.below(10),
        8 => greatest + chance.below(1000),
        _ => greatest.saturating_sub(chance.below(3)),
    };
    highest.min(MOST_NUMBER)
}

fn aru(chance: &mut Chance, record: &[u8], highest: u32) -> u32 {
    let level = get4(record, LEVEL);
    let aru = match chance.below(8) {
        0 | 1 => highest,
        2 => level,
        3 => level + 1,
        4 => level.saturating_sub(1),
        5 => get4(record, ARU),
        6 => get4(record, SAFE),
        _ => chance.from(0, highest),
    };
    aru.min(highest)
}

/// Around the own last count and the flow control's borders above it.
fn round(chance: &mut Chance, record: &[u8]) -> u16 {
    let own = u16::from(record[BROADCAST]);
    let round = match chance.below(5) {
        0 => own.saturating_sub(chance.below(3) as u16),
        1 => own + chance.below(3) as u16,
        2 => own + 24 - chance.below(10) as u16,
        3 => own + 24 + chance.below(3) as u16,
        _ => MOST_ROUND - chance.below(20) as u16,
    };
    round.min(MOST_ROUND)
}

/// Around the own part, around where the share of this station's posts is 8, and up to the most.
fn backlog(chance: &mut Chance, record: &[u8]) -> u16 {
    let own = u16::from(record[OWN_PART]);
    let backlog = match chance.below(6) {
        0 => own.saturating_sub(chance.below(3) as u16),
        1 => own + chance.below(3) as u16,
        2 => own + 2 * u16::from(record[POST_COUNT]) + chance.below(4) as u16,
        3 => MOST_BACKLOG - chance.below(20) as u16,
        _ => chance.from(0, MOST_BACKLOG.into()) as u16,
    };
    backlog.min(MOST_BACKLOG)
}

/// None, held ones, missing ones, or any from below the safe mark to above what can be held.
fn requests(chance: &mut Chance, record: &[u8], highest: u32) -> Vec<u32> {
    let safe = get4(record, SAFE);
    let from = safe.saturating_sub(2).max(1);
    let to = highest.min(safe.saturating_add(HELD_PLACES + 20));
    let held = |number: &u32| (safe + 1..=safe + HELD_PLACES).contains(number) && is_held(record, *number);
    let mut requests: Vec<u32> = match chance.below(5) {
        0 => Vec::new(),
        1 | 2 => (from..=to).filter(held).collect(),
        3 => (from..=to).filter(|number| !held(number)).collect(),
        _ => (from..=to).collect(),
    };
    chance.shuffle(&mut requests);
    requests.truncate(chance.pick(&[1, 2, 5, 15, 16, 16]));
    requests
}
