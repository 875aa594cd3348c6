//! Random values with a liking for borders.

use crate::call::{Ask, Call};
use crate::chance::Chance;
use crate::layout::{MOST_CONTENT, MOST_MEMBERS, MOST_NUMBER, RECORD_LEN};

/// Distinct ids, the lowest first, the rest in any order.
pub fn members(chance: &mut Chance, count: usize) -> Vec<u16> {
    let most = chance.pick(&[count as u16, 20, 300, u16::MAX]);
    let mut ids: Vec<u16> = Vec::new();
    while ids.len() < count {
        let id = match chance.below(12) {
            0 => most,
            _ => chance.from(1, most.into()) as u16,
        };
        if !ids.contains(&id) {
            ids.push(id);
        }
    }
    if let Some(lowest) = (0..count).min_by_key(|place| ids[*place]) {
        ids.swap(0, lowest);
    }
    ids
}

pub fn member_count(chance: &mut Chance) -> usize {
    chance.from(2, MOST_MEMBERS as u32) as usize
}

pub fn member_bytes(ids: &[u16]) -> Vec<u8> {
    ids.iter().flat_map(|id| id.to_le_bytes()).collect()
}

/// A ring, message or token number in range.
pub fn number(chance: &mut Chance) -> u32 {
    match chance.below(6) {
        0 => 1,
        1 => chance.from(1, 100),
        2 => chance.from(1, 100_000),
        3 => MOST_NUMBER - chance.below(40),
        4 => MOST_NUMBER,
        _ => chance.from(1, MOST_NUMBER),
    }
}

/// A mark: 0, small, at the end of the numbers, or anywhere.
pub fn mark(chance: &mut Chance) -> u32 {
    match chance.below(6) {
        0 => 0,
        1 => chance.below(70),
        2 => MOST_NUMBER - chance.below(70),
        3 => 32 * chance.from(1, 62_000_000) - chance.below(2),
        _ => chance.below(MOST_NUMBER + 1),
    }
}

/// A content's length that is allowed.
pub fn length(chance: &mut Chance) -> usize {
    match chance.below(8) {
        0 => 0,
        1 => 1,
        2 => MOST_CONTENT - 1,
        3 | 4 => MOST_CONTENT,
        _ => chance.place(MOST_CONTENT + 1),
    }
}

pub fn content(chance: &mut Chance) -> Vec<u8> {
    let length = length(chance);
    chance.bytes(length)
}

/// A post, now and then with a service that there is not or a content that is too long.
pub fn post(chance: &mut Chance) -> (Ask, Vec<u8>) {
    let service = match chance.below(40) {
        0 => chance.pick(&[2, 256, 65_535]),
        other => (other % 2) as u16,
    };
    let mut content = content(chance);
    match chance.below(2000) {
        // A length that is allowed in its low bits alone.
        0 => content.resize(content.len() + 65_536, 0),
        1..=20 => content.resize(content.len() + 256, 0),
        21..=60 => content.resize(MOST_CONTENT + 1, 0),
        _ => (),
    }
    (Ask::Post { service }, content)
}

/// Lends one or more of a call's buffers too short, or the record in a wrong length.
pub fn shorten(chance: &mut Chance, call: &mut Call) {
    let which = chance.from(1, 7);
    if which & 1 != 0 {
        call.frames_len = shorter(chance, call.frames_len);
    }
    if which & 2 != 0 {
        call.deliveries_len = shorter(chance, call.deliveries_len);
    }
    if which & 4 != 0 {
        call.record_len = other_record_len(chance);
    }
}

fn shorter(chance: &mut Chance, len: usize) -> usize {
    match chance.below(4) {
        0 => 0,
        1 => chance.place(len + 1),
        _ => len.saturating_sub(1),
    }
}

pub fn other_record_len(chance: &mut Chance) -> usize {
    match chance.below(8) {
        0 => 0,
        1 => 1,
        2 | 3 => RECORD_LEN - 1,
        4 | 5 => RECORD_LEN + 1,
        6 => RECORD_LEN + chance.pick(&[256, 65_536]),
        _ => chance.place(2 * RECORD_LEN),
    }
}

/// Numbers around a border of a field.
pub fn word_at_border(chance: &mut Chance) -> u32 {
    let near = chance.pick(&[
        0,
        1,
        2,
        16,
        17,
        24,
        32,
        64,
        65,
        128,
        129,
        255,
        256,
        65_535,
        65_536,
        MOST_NUMBER,
        MOST_NUMBER + 1,
        i32::MAX as u32,
        u32::MAX,
    ]);
    match chance.below(4) {
        0 => near.wrapping_add(1),
        1 => near.wrapping_sub(1),
        _ => near,
    }
}
