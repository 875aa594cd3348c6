//! Arrivals of damaged frames: every field at its borders and beyond, wrong lengths, any bytes.

use crate::call::Ask;
use crate::chance::Chance;
use crate::choices;
use crate::coverage::Event;
use crate::fitting;
use crate::frames::*;
use crate::layout::{get2, get4, put2, put4, MOST_BACKLOG};
use crate::tester::{Outcome, Station, Tester};
use crate::whole;

pub fn run(tester: &mut Tester) -> Outcome<()> {
    let record = whole::build(&mut tester.chance);
    for _ in 0..20 {
        let mut frame = fitting::frame(&mut tester.chance, &record);
        match tester.chance.below(200) {
            0 => frame = too_long(&mut tester.chance),
            _ => damage(&mut tester.chance, &mut frame),
        }
        tester.ask(&mut Station::built(record.clone()), Ask::Arrive, frame)?;
    }
    backlog_alone(tester, record)
}

/// A token that follows the layout but for its backlog.
fn backlog_alone(tester: &mut Tester, record: Vec<u8>) -> Outcome<()> {
    let mut frame = fitting::token(&mut tester.chance, &record);
    let backlog = tester.chance.pick(&[MOST_BACKLOG + 1, 256, u16::MAX]);
    put2(&mut frame, BACKLOG, backlog);
    let answer = tester.ask(&mut Station::built(record), Ask::Arrive, frame)?;
    let refused = backlog == MOST_BACKLOG + 1 && answer.refusal == 12;
    tester.coverage.event_if(Event::BacklogRefused, refused);
    Ok(())
}

/// Damages a frame in one way or more.
pub fn damage(chance: &mut Chance, frame: &mut Vec<u8>) {
    for _ in 0..chance.pick(&[1, 1, 1, 1, 2, 3]) {
        match chance.below(12) {
            0..=5 => field(chance, frame),
            6 => request(chance, frame),
            7 => relation(chance, frame),
            8 => resize(chance, frame),
            9 => one_byte(chance, frame),
            10 => length_field(chance, frame),
            _ => any(chance, frame),
        }
    }
}

/// One of the fields of either kind gets a border value.
fn field(chance: &mut Chance, frame: &mut [u8]) {
    let two = [KIND, REPRESENTATIVE, WHO, SERVICE, BLOCKER, ROUND, BACKLOG, REQUEST_COUNT];
    let four = [RING, NUMBER, CONFIGURATION, HIGHEST, ARU];
    let value = choices::word_at_border(chance);
    if chance.one_in(2) {
        let at = chance.pick(&two);
        if at + 2 <= frame.len() {
            put2(frame, at, value as u16);
        }
    } else {
        let at = chance.pick(&four);
        if at + 4 <= frame.len() {
            put4(frame, at, value);
        }
    }
}

/// A request becomes 0, one above the highest, a border value or another one.
fn request(chance: &mut Chance, frame: &mut [u8]) {
    let count = frame.len().saturating_sub(REQUESTS) / 4;
    if !is_token(frame) || count == 0 {
        return;
    }
    let (one, other) = (chance.place(count), chance.place(count));
    let value = match chance.below(5) {
        0 => 0,
        1 => get4(frame, HIGHEST).wrapping_add(1),
        2 => choices::word_at_border(chance),
        _ => get4(frame, REQUESTS + 4 * other),
    };
    put4(frame, REQUESTS + 4 * one, value);
}

/// Of a token: aru, highest and blocker no longer fit each other.
fn relation(chance: &mut Chance, frame: &mut [u8]) {
    if !is_token(frame) {
        return;
    }
    let (highest, aru) = (get4(frame, HIGHEST), get4(frame, ARU));
    match chance.below(5) {
        0 => put4(frame, ARU, highest.wrapping_add(1)),
        1 => put4(frame, ARU, highest),
        2 => put4(frame, HIGHEST, aru.wrapping_sub(1)),
        3 => put2(frame, BLOCKER, 0),
        _ => {
            let id = get2(frame, chance.pick(&[REPRESENTATIVE, WHO]));
            put2(frame, BLOCKER, id);
        }
    }
}

/// Cut off or made longer, for the most part with the right length field.
fn resize(chance: &mut Chance, frame: &mut Vec<u8>) {
    let size = match chance.below(4) {
        0 => frame.len().saturating_sub(chance.from(1, 4) as usize),
        1 => frame.len() + chance.from(1, 4) as usize,
        2 => chance.pick(&[0, 1, 2, 9, 10, 11, 21, 22, 31, 32, 86, 87, 96, 97, 100]),
        _ => chance.place(101),
    };
    let old = frame.len().min(size);
    frame.resize(size, 0);
    if chance.one_in(2) {
        chance.fill(&mut frame[old..]);
    }
    if chance.one_in(2) && is_token(frame) {
        let requests = (frame.len() - REQUESTS) / 4;
        put2(frame, REQUEST_COUNT, requests as u16);
    }
    if !chance.one_in(4) {
        put_length(frame);
    }
}

fn one_byte(chance: &mut Chance, frame: &mut [u8]) {
    if !frame.is_empty() {
        let at = chance.place(frame.len());
        frame[at] = chance.byte();
    }
}

fn length_field(chance: &mut Chance, frame: &mut [u8]) {
    if frame.len() < 2 {
        return;
    }
    let exact = (frame.len() - 2) as u16;
    let value = match chance.below(4) {
        0 => exact.wrapping_add(1),
        1 => exact.wrapping_sub(1),
        2 => exact.wrapping_add(2),
        _ => choices::word_at_border(chance) as u16,
    };
    put2(frame, LENGTH, value);
}

/// Any bytes of any length up to 100; half of them with the right length and a kind.
fn any(chance: &mut Chance, frame: &mut Vec<u8>) {
    let size = chance.place(101);
    frame.resize(size, 0);
    chance.fill(frame);
    if chance.one_in(2) {
        put_length(frame);
        if frame.len() >= KIND + 2 {
            put2(frame, KIND, chance.below(4) as u16);
        }
    }
}

/// A frame whose size is more than a length field can say, and whose length field has the low bits of it.
fn too_long(chance: &mut Chance) -> Vec<u8> {
    let size = 65_536 + chance.place(100);
    let mut frame = vec![0; size];
    put_length(&mut frame);
    frame
}
