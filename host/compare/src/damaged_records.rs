//! Calls at damaged records: every byte in its turn, every field at its borders, places and marks that no
//! longer fit each other, wrong lengths.

use crate::call::{Ask, Call};
use crate::chance::Chance;
use crate::choices;
use crate::coverage::Event;
use crate::damaged_frames;
use crate::fitting;
use crate::layout::*;
use crate::tester::{Outcome, Station, Tester};
use crate::whole;

/// `turn` is the byte whose turn it is; each time, the next few have theirs.
pub fn run(tester: &mut Tester, turn: &mut usize) -> Outcome<()> {
    let whole = whole::build(&mut tester.chance);
    for _ in 0..16 {
        let mut record = whole.clone();
        record[*turn] = other_byte(&mut tester.chance, record[*turn]);
        if *turn != PANEL && tester.chance.one_in(2) {
            whole::put_panel(&mut record);
        }
        tester.coverage.byte_damaged(*turn);
        *turn = (*turn + 1) % RECORD_LEN;
        every_call(tester, &whole, record, RECORD_LEN)?;
    }
    for _ in 0..24 {
        let mut record = whole.clone();
        for _ in 0..tester.chance.pick(&[1, 1, 1, 2, 4]) {
            damage(&mut tester.chance, &whole, &mut record);
        }
        // For the most part nothing but the damage is wrong.
        if !tester.chance.one_in(4) {
            whole::put_panel(&mut record);
        }
        every_call(tester, &whole, record, RECORD_LEN)?;
    }
    own_part_alone(tester, &whole)?;
    panel_alone(tester, &whole)?;
    let len = choices::other_record_len(&mut tester.chance);
    every_call(tester, &whole, whole.clone(), len)?;
    Ok(())
}

/// A record that is whole but for the own part of the backlog.
fn own_part_alone(tester: &mut Tester, whole: &[u8]) -> Outcome<()> {
    let least = MOST_POSTS as u8 + 1;
    let own_part = tester.chance.pick(&[least, 32, 255]);
    let mut record = whole.to_vec();
    record[OWN_PART] = own_part;
    let not_whole = every_call(tester, whole, record, RECORD_LEN)?;
    tester.coverage.event_if(Event::OwnPartRefused, own_part == least && not_whole == 3);
    Ok(())
}

/// Records that are whole but for the panel's byte: one less or one more than the count, or any other value.
fn panel_alone(tester: &mut Tester, whole: &[u8]) -> Outcome<()> {
    let count = whole[PANEL];
    let near = tester.chance.pick(&[count.wrapping_sub(1), count + 1]);
    for panel in [near, tester.chance.byte(), tester.chance.byte()] {
        if panel != count {
            let mut record = whole.to_vec();
            record[PANEL] = panel;
            if every_call(tester, whole, record, RECORD_LEN)? == 3 {
                tester.coverage.panel_refused(count, panel);
            }
        }
    }
    Ok(())
}

/// A post, an arrival that fits the whole record, and a resending; how many of them are refused with 2.
fn every_call(tester: &mut Tester, whole: &[u8], record: Vec<u8>, len: usize) -> Outcome<u32> {
    let mut not_whole = 0;
    let mut station = Station::built(record);
    let frame = fitting::frame(&mut tester.chance, whole);
    let asked = [(Ask::Resend, Vec::new()), choices::post(&mut tester.chance), (Ask::Arrive, frame)];
    for (ask, input) in asked {
        let mut call = Call::new(ask, input, tester.noise());
        call.record_len = len;
        let answer = tester.call(&mut station, call)?;
        not_whole += u32::from(answer.refusal == 2);
    }
    Ok(not_whole)
}

fn other_byte(chance: &mut Chance, byte: u8) -> u8 {
    let other = match chance.below(5) {
        0 => byte.wrapping_add(1),
        1 => byte.wrapping_sub(1),
        2 => byte ^ (1 << chance.below(8)),
        3 => chance.pick(&[0, 1, 255]),
        _ => chance.byte(),
    };
    if other == byte {
        return !byte;
    }
    other
}

fn damage(chance: &mut Chance, whole: &[u8], record: &mut [u8]) {
    match chance.below(8) {
        0 => border(chance, record),
        1 | 2 => marks(chance, record),
        3 => members(chance, record),
        4 => held(chance, record),
        5 => posts(chance, record),
        _ => token(chance, whole, record),
    }
}

/// A field of its own gets a border value.
fn border(chance: &mut Chance, record: &mut [u8]) {
    let value = choices::word_at_border(chance);
    let byte = chance.pick(&[MEMBER_COUNT, BROADCAST, STALL, OWN_PART, TOKEN_SIZE, POST_COUNT]);
    let place = chance.place(HELD_PLACES as usize);
    match chance.below(5) {
        0 => record[byte] = value as u8,
        1 => put4(record, chance.pick(&[RING, TOKEN_NUMBER, LEVEL, ARU]), value),
        2 => put2(record, SERVICES + 2 * place, value as u16),
        3 => record[LENGTHS + place] = value as u8,
        _ => put2(record, POST_SERVICES + 2 * (place % MOST_POSTS), value as u16),
    }
}

/// A mark moves past the one that bounds it, or to the end of the numbers.
fn marks(chance: &mut Chance, record: &mut [u8]) {
    let fields = [LEVEL, SAFE, DELIVERED, ARU, EARLIER_ARU, TOKEN_NUMBER];
    let field = chance.pick(&fields);
    let old = get4(record, field);
    let value = match chance.below(7) {
        0 => old.wrapping_add(1),
        1 => old.wrapping_sub(1),
        2 => get4(record, LEVEL).wrapping_add(1),
        3 => get4(record, SAFE).wrapping_sub(1),
        4 => old.wrapping_add(HELD_PLACES),
        5 => get4(record, chance.pick(&fields)),
        _ => choices::word_at_border(chance),
    };
    put4(record, field, value);
}

fn members(chance: &mut Chance, record: &mut [u8]) {
    let at = |place: usize| MEMBERS + 2 * place;
    let count = usize::from(record[MEMBER_COUNT]).clamp(1, MOST_MEMBERS);
    let (one, other) = (chance.place(count), chance.place(MOST_MEMBERS));
    match chance.below(6) {
        0 => put2(record, at(one), get2(record, at(other))),
        1 => put2(record, at(one), 0),
        2 => put2(record, at(other), chance.word()),
        3 => put2(record, OWN, chance.word()),
        4 => record[MEMBER_COUNT] = chance.below(11) as u8,
        _ => {
            let first = get2(record, at(0));
            put2(record, at(0), get2(record, at(one)));
            put2(record, at(one), first);
        }
    }
}

/// A held message is let go, or one more is held, or its sender or length is another.
fn held(chance: &mut Chance, record: &mut [u8]) {
    let (level, safe) = (get4(record, LEVEL), get4(record, SAFE));
    let number = match chance.below(3) {
        0 => level.wrapping_add(1),
        1 => level,
        _ => safe.wrapping_add(chance.from(1, HELD_PLACES)),
    };
    let place = (number % HELD_PLACES) as usize;
    let sender = get2(record, OWN);
    match chance.below(4) {
        0 => whole::let_go(record, number),
        1 => whole::hold(record, number, sender, 0, &[]),
        2 => put2(record, SENDERS + 2 * place, chance.word()),
        _ => record[LENGTHS + place] = choices::length(chance) as u8,
    }
}

/// Counts and lengths of posts, up and down.
fn posts(chance: &mut Chance, record: &mut [u8]) {
    let place = chance.place(MOST_POSTS);
    match chance.below(3) {
        0 => record[POST_COUNT] = record[POST_COUNT].wrapping_sub(1),
        1 => record[POST_COUNT] = record[POST_COUNT].wrapping_add(1),
        _ => record[POST_LENGTHS + place] = choices::word_at_border(chance) as u8,
    }
}

/// The token that may be resent is damaged as a frame from the cable is.
fn token(chance: &mut Chance, whole: &[u8], record: &mut [u8]) {
    let size = usize::from(record[TOKEN_SIZE]).min(MOST_TOKEN);
    let mut frame = record[TOKEN..TOKEN + size].to_vec();
    if frame.is_empty() || chance.one_in(6) {
        frame = fitting::frame(chance, whole);
    }
    if !chance.one_in(8) {
        damaged_frames::damage(chance, &mut frame);
    }
    frame.truncate(MOST_TOKEN);
    whole::put_remembered(record, &frame);
}
