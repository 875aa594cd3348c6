//! Founding with lists of all kinds, and the first calls at what was founded.

use crate::call::{Ask, Call};
use crate::chance::Chance;
use crate::choices;
use crate::far;
use crate::layout::*;
use crate::tester::{Outcome, Station, Tester};

pub fn run(tester: &mut Tester) -> Outcome<()> {
    let mut station = Station::built(tester.chance.bytes(RECORD_LEN));
    let call = found(tester);
    let answer = tester.call(&mut station, call)?;
    if answer.refusal != 0 {
        return Ok(());
    }
    let token = tester.frames(answer).to_vec();
    tester.ask(&mut station, Ask::Resend, Vec::new())?;
    tester.ask(&mut station, Ask::Arrive, token)?;
    far::step(tester, &mut station)
}

fn found(tester: &mut Tester) -> Call {
    let chance = &mut tester.chance;
    let count = match chance.below(4) {
        0 => chance.place(11),
        _ => choices::member_count(chance),
    };
    let mut ids = choices::members(chance, count);
    let own = match chance.below(8) {
        0 => chance.word(),
        _ if ids.is_empty() => 0,
        _ => chance.pick(&ids),
    };
    if chance.one_in(3) {
        spoil(chance, &mut ids);
    }
    let mut list = choices::member_bytes(&ids);
    if chance.one_in(12) {
        list.push(chance.byte());
    }
    if chance.one_in(200) {
        // A count that is 2 to 8 in its low bits alone.
        list.resize(list.len() + chance.pick(&[512, 65_536, 131_072]), 0);
    }
    let ring = match chance.below(4) {
        0 => choices::word_at_border(chance),
        _ => choices::number(chance),
    };
    let mut call = Call::new(Ask::Found { own, ring }, list, chance.word());
    if chance.one_in(4) {
        call.record_len = choices::other_record_len(chance);
    }
    if chance.one_in(4) {
        call.frames_len = chance.pick(&[0, 1, 31, 33, 100]);
    }
    call
}

/// The list is no longer one of distinct ids with the lowest first; in rare cases it still is.
fn spoil(chance: &mut Chance, ids: &mut [u16]) {
    if ids.is_empty() {
        return;
    }
    let (one, other) = (chance.place(ids.len()), chance.place(ids.len()));
    match chance.below(4) {
        0 => ids[one] = 0,
        1 => ids[one] = ids[other],
        2 => ids.swap(0, one),
        _ => ids[one] = chance.pick(&[1, 2, u16::MAX]),
    }
}
