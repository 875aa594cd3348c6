//! The specification's 'A token is accepted', a function for each of its steps 2 to 9; step 1 is in `flow`.

use crate::answer::{Answer, Outcome};
use crate::delivery::deliver;
use crate::flow::Others;
use crate::frame::{Token, TokenNumber};
use crate::layout::{MOST_NUMBER, WINDOW};
use crate::output::Output;
use crate::record::Lent;

/// A stall count above this is worth the notice 'deaf'.
const DEAF_ABOVE: u8 = 10;

/// Takes the station's turn with a token that has passed the door, and forwards it.
pub fn accept(record: &mut Lent, mut token: Token, mut cable: Output, mut delivered: Output) -> Answer {
    let others = Others::of(record, &token);
    let allowance = others.allowance(record.posts());
    let repeats = step_2_repeat(record, &mut token, &mut cable);
    let room = allowance.saturating_sub(repeats);
    let new = step_3_broadcast(record, &mut token, room, &mut cable);
    step_4_aru(record, &mut token);
    let deaf = step_5_stall(record, &token);
    let safe = step_6_safe_mark(record, &token);
    step_7_request(record, &mut token, safe);
    step_8_forward(record, &mut token, &others, repeats + new, &mut cable);
    step_9_deliver(record, safe, &mut delivered);
    Answer { frames: cable.count(), deliveries: delivered.count(), deaf, ..Answer::of(Outcome::Accepted) }
}

/// Broadcasts what is asked for and held; gives the number of repeats.
fn step_2_repeat(record: &Lent, token: &mut Token, cable: &mut Output) -> usize {
    let mut repeats = 0;
    token.requests.retain(|number| {
        let held = record.held().has(number);
        if held {
            cable.message(&record.message(number));
            repeats += 1;
        }
        !held
    });
    repeats
}

/// Broadcasts the oldest posts; gives the number of new messages.
fn step_3_broadcast(record: &mut Lent, token: &mut Token, room: usize, cable: &mut Output) -> usize {
    let numbers = record.held().last_place().min(MOST_NUMBER).saturating_sub(token.highest);
    let new = room.min(record.posts()).min(numbers as usize);
    for post in 0..new {
        token.highest += 1;
        record.hold_post(token.highest, post);
        cable.message(&record.message(token.highest));
    }
    record.drop_posts(new);
    new
}

/// Lowers aru to the level, or raises it where nobody else keeps it back.
fn step_4_aru(record: &Lent, token: &mut Token) {
    let level = record.level();
    let own = record.ring().own;
    if level < token.aru || token.blocker.is_none_or(|blocker| blocker == own) {
        token.aru = level;
        token.blocker = (level != token.highest).then_some(own);
    }
}

/// Counts the visits at which aru stood still; gives the id in the notice 'deaf', or 0.
fn step_5_stall(record: &mut Lent, token: &Token) -> u16 {
    let stands = token.aru == record.aru() && token.blocker.is_some();
    let stall = if stands { record.stall().saturating_add(1) } else { 0 };
    record.set_stall(stall);
    let own = record.ring().own;
    if stall > DEAF_ABOVE && token.blocker == Some(own) {
        own
    } else {
        0
    }
}

/// The new safe mark. The record gets it with step 9, as its places go by the old one until then.
fn step_6_safe_mark(record: &Lent, token: &Token) -> u32 {
    record.safe().max(token.aru.min(record.aru()))
}

/// Asks for what is missing.
fn step_7_request(record: &Lent, token: &mut Token, safe: u32) {
    for number in record.level() + 1..=token.highest.min(safe + WINDOW as u32) {
        if token.requests.is_full() {
            break;
        }
        if !record.held().has(number) && !token.requests.as_slice().contains(&number) {
            token.requests.push(number);
        }
    }
}

/// Writes the token for the next member, and remembers it.
fn step_8_forward(
    record: &mut Lent,
    token: &mut Token,
    others: &Others,
    broadcasts: usize,
    cable: &mut Output,
) {
    let waiting = record.posts();
    token.round_count = others.round_count(broadcasts);
    token.backlog = others.backlog(waiting);
    token.number = TokenNumber(token.number.0 + 1);
    token.addressee = record.ring().next();
    record.set_last_count(broadcasts as u8);
    record.set_own_part(waiting as u8);
    record.push_aru(token.aru);
    record.remember(token.number, cable.token(token));
}

/// Delivers, then lets go of everything up to the safe mark.
fn step_9_deliver(record: &mut Lent, safe: u32, delivered: &mut Output) {
    deliver(record, safe, delivered);
    record.let_go(safe);
}
