//! Whole records far from founding, laid out byte by byte as docs/RECORD.md says.

use crate::chance::Chance;
use crate::choices;
use crate::frames::{self, Token};
use crate::layout::*;

/// The record of a station just founded.
pub fn fresh(members: &[u16], own: u16, ring: u32) -> Vec<u8> {
    let mut record = vec![0; RECORD_LEN];
    put2(&mut record, OWN, own);
    put4(&mut record, RING, ring);
    record[MEMBER_COUNT] = members.len() as u8;
    for (place, id) in members.iter().enumerate() {
        put2(&mut record, MEMBERS + 2 * place, *id);
    }
    record
}

pub fn members(record: &[u8]) -> Vec<u16> {
    let count = usize::from(record[MEMBER_COUNT]).min(MOST_MEMBERS);
    let id = |place| get2(record, MEMBERS + 2 * place);
    (0..count).map(id).collect()
}

pub fn ring(record: &[u8]) -> frames::Ring {
    frames::Ring { number: get4(record, RING), representative: get2(record, MEMBERS) }
}

fn place(number: u32) -> usize {
    (number % HELD_PLACES) as usize
}

pub fn is_held(record: &[u8], number: u32) -> bool {
    get2(record, SENDERS + 2 * place(number)) != 0
}

/// The greatest number that can be held.
pub fn greatest_place(record: &[u8]) -> u32 {
    MOST_NUMBER.min(get4(record, SAFE) + HELD_PLACES)
}

/// The level or the greatest number held.
pub fn greatest(record: &[u8]) -> u32 {
    let numbers = get4(record, SAFE) + 1..=greatest_place(record);
    let held = numbers.filter(|number| is_held(record, *number)).max();
    get4(record, LEVEL).max(held.unwrap_or(0))
}

/// How many messages are held and undelivered.
pub fn undelivered(record: &[u8]) -> u8 {
    let (safe, delivered) = (u64::from(get4(record, SAFE)), u64::from(get4(record, DELIVERED)));
    let held = |number: &u64| is_held(record, (*number % u64::from(HELD_PLACES)) as u32);
    let above = (safe + 1..=safe + u64::from(HELD_PLACES)).filter(|number| *number > delivered);
    above.filter(held).count() as u8
}

/// Puts that count where a panel reads it.
pub fn put_panel(record: &mut [u8]) {
    record[PANEL] = undelivered(record);
}

pub fn hold(record: &mut [u8], number: u32, sender: u16, service: u16, content: &[u8]) {
    let place = place(number);
    put2(record, SENDERS + 2 * place, sender);
    put2(record, SERVICES + 2 * place, service);
    record[LENGTHS + place] = content.len() as u8;
    put_content(record, CONTENTS, place, content);
}

fn put_content(record: &mut [u8], contents: usize, place: usize, content: &[u8]) {
    let at = contents + MOST_CONTENT * place;
    record[at..at + MOST_CONTENT].fill(0);
    record[at..at + content.len()].copy_from_slice(content);
}

pub fn let_go(record: &mut [u8], number: u32) {
    hold(record, number, 0, 0, &[]);
}

/// How the messages and posts of one record are.
struct Taste {
    service: Option<u16>,
    full: bool,
}

impl Taste {
    fn of(chance: &mut Chance) -> Taste {
        Taste { service: chance.pick(&[Some(0), Some(1), None, None]), full: chance.one_in(4) }
    }

    fn service(&self, chance: &mut Chance) -> u16 {
        self.service.unwrap_or_else(|| chance.below(2) as u16)
    }

    fn content(&self, chance: &mut Chance) -> Vec<u8> {
        if self.full {
            return chance.bytes(MOST_CONTENT);
        }
        choices::content(chance)
    }
}

/// A whole record with marks, messages, a remembered token and posts anywhere in their ranges.
pub fn build(chance: &mut Chance) -> Vec<u8> {
    let count = choices::member_count(chance);
    let ids = choices::members(chance, count);
    let own = chance.pick(&ids);
    let mut record = fresh(&ids, own, choices::number(chance));
    let taste = Taste::of(chance);
    put_marks(chance, &mut record);
    put_held(chance, &mut record, &ids, &taste);
    put_turn(chance, &mut record);
    if !chance.one_in(3) {
        let frame = remembered(chance, &record, &ids);
        put_remembered(&mut record, &frame);
    }
    let posts = chance.pick(&[0, 1, 3, 7, 8, 9, 15, 16]);
    for place in 0..posts {
        put_post(chance, &mut record, place, &taste);
    }
    record[POST_COUNT] = posts as u8;
    put_panel(&mut record);
    record
}

fn put_marks(chance: &mut Chance, record: &mut [u8]) {
    let safe = choices::mark(chance);
    let room = HELD_PLACES.min(MOST_NUMBER - safe);
    let span = match chance.below(3) {
        0 => chance.from(0, room),
        _ => chance.pick(&[0, 1, 2, 8, 16, 24, 31, 32]),
    };
    let level = safe + span.min(room);
    let delivered = match chance.below(4) {
        0 => safe,
        1 => level,
        _ => chance.from(safe, level),
    };
    put4(record, SAFE, safe);
    put4(record, LEVEL, level);
    put4(record, DELIVERED, delivered);
}

/// All from the safe mark + 1 to the level, and any above the level + 1.
fn put_held(chance: &mut Chance, record: &mut [u8], ids: &[u16], taste: &Taste) {
    let level = get4(record, LEVEL);
    let above = chance.pick(&[0, 0, 500, 900, 1000]);
    for number in get4(record, SAFE) + 1..=greatest_place(record) {
        if number <= level || (number > level + 1 && chance.permille(above)) {
            let (sender, service) = (chance.pick(ids), taste.service(chance));
            let content = taste.content(chance);
            hold(record, number, sender, service, &content);
        }
    }
}

fn put_turn(chance: &mut Chance, record: &mut [u8]) {
    let (level, safe) = (get4(record, LEVEL), get4(record, SAFE));
    for aru in [ARU, EARLIER_ARU] {
        let value = match chance.below(5) {
            0 => level,
            1 => safe,
            2 => chance.from(0, level),
            _ => chance.from(safe, level),
        };
        put4(record, aru, value);
    }
    let number = match chance.below(3) {
        0 => MOST_NUMBER - chance.below(4),
        _ => choices::mark(chance),
    };
    put4(record, TOKEN_NUMBER, number);
    record[BROADCAST] = chance.pick(&[0, 0, 1, 8, 10, 15, 16]);
    record[OWN_PART] = match chance.below(3) {
        0 => chance.pick(&[0, 1, 15, 16]),
        _ => chance.place(MOST_POSTS + 1) as u8,
    };
    record[STALL] = match chance.below(3) {
        0 => 0,
        1 => chance.byte(),
        _ => chance.pick(&[8, 9, 10, 11, 253, 254, 255]),
    };
}

/// Any token of the ring that follows the layout.
fn remembered(chance: &mut Chance, record: &[u8], ids: &[u16]) -> Vec<u8> {
    let highest = choices::mark(chance);
    let aru = match chance.below(3) {
        0 => highest,
        _ => chance.from(0, highest),
    };
    let blocker = if aru == highest { 0 } else { chance.pick(ids) };
    let mut requests: Vec<u32> = (1..=highest).rev().take(40).collect();
    chance.shuffle(&mut requests);
    requests.truncate(chance.pick(&[0, 0, 1, 2, 15, 16]));
    ring(record).token(&Token {
        addressee: chance.pick(ids),
        number: choices::number(chance),
        highest,
        aru,
        blocker,
        round: chance.pick(&[0, 1, 24, 127, MOST_ROUND]),
        backlog: chance.pick(&[0, 1, 16, 127, MOST_BACKLOG]),
        requests,
    })
}

pub fn put_remembered(record: &mut [u8], frame: &[u8]) {
    record[TOKEN_SIZE] = frame.len() as u8;
    record[TOKEN..TOKEN + MOST_TOKEN].fill(0);
    record[TOKEN..TOKEN + frame.len()].copy_from_slice(frame);
}

fn put_post(chance: &mut Chance, record: &mut [u8], place: usize, taste: &Taste) {
    put2(record, POST_SERVICES + 2 * place, taste.service(chance));
    let content = taste.content(chance);
    record[POST_LENGTHS + place] = content.len() as u8;
    put_content(record, POST_CONTENTS, place, &content);
}
