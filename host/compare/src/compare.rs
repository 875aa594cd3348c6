//! One call on both sides: each side keeps the rules of include/totem.h by itself, and both do the same.

use std::ops::Range;

use crate::arena::{Arena, Part};
use crate::call::{Ask, Call};
use crate::layout::{get2, DELIVERIES_LEN, FRAMES_LEN, MOST_TOKEN, OWN, PANEL, RECORD_LEN, TOKEN_LEN};
use crate::sides::{Answer, ACCEPTED, AHEAD, FOUNDED, HAD, KEPT, POSTED, RESENT};
use crate::whole;

#[derive(Clone, Copy, PartialEq, Eq, Debug)]
pub enum Kind {
    /// This side's answer is none that the call can give.
    Answer(usize),
    /// This side altered a byte that the call must not alter.
    Altered(usize, Part),
    /// This side left another number in the panel's byte than are held and undelivered.
    Panel(usize),
    /// The two answers differ.
    Answers,
    /// The answers are alike, the bytes left behind are not.
    Bytes(Part),
}

pub struct Difference {
    pub kind: Kind,
    pub answers: [Answer; 2],
    /// The first byte that is wrong, counted in the arena's blocks.
    pub at: Option<usize>,
}

/// The answer of both, or in what they differ.
pub fn compare(arena: &mut Arena, call: &Call, record: &[u8]) -> Result<Answer, Difference> {
    let answers = arena.make(call, record);
    let difference = |kind, at| Difference { kind, answers, at };
    for side in 0..2 {
        let own = arena.before(Part::Record).get(..OWN + 2);
        if !possible(call, answers[side], own.map_or(0, |bytes| get2(bytes, 0))) {
            return Err(difference(Kind::Answer(side), None));
        }
        if let Some(at) = arena.altered_outside(side, &writable(arena, call, answers[side])) {
            let part = arena.locate(at).0;
            return Err(difference(Kind::Altered(side, part), Some(at)));
        }
        if answers[side].refusal == 0 && !is_panel_right(arena.after(side, Part::Record)) {
            return Err(difference(Kind::Panel(side), Some(arena.range(Part::Record).start + PANEL)));
        }
    }
    if answers[0] != answers[1] {
        return Err(difference(Kind::Answers, arena.unequal()));
    }
    match arena.unequal() {
        Some(at) => Err(difference(Kind::Bytes(arena.locate(at).0), Some(at))),
        None => Ok(answers[0]),
    }
}

/// Whether a panel reads what is held and undelivered.
fn is_panel_right(record: &[u8]) -> bool {
    record.len() < RECORD_LEN || record[PANEL] == whole::undelivered(record)
}

/// Whether the header allows this answer to this call at all.
fn possible(call: &Call, answer: Answer, own: u16) -> bool {
    let Answer { refusal, outcome, frames, deliveries, deaf } = answer;
    if refusal != 0 {
        return call.ask.questions().contains(&refusal)
            && (outcome, frames, deliveries, deaf) == (0, 0, 0, 0);
    }
    let frames = usize::from(frames);
    let none = deliveries == 0 && deaf == 0;
    match call.ask {
        Ask::Found { .. } => outcome == FOUNDED && frames == TOKEN_LEN && none,
        Ask::Post { .. } => outcome == POSTED && frames == 0 && none,
        Ask::Resend => outcome == RESENT && (TOKEN_LEN..=MOST_TOKEN).contains(&frames) && none,
        Ask::Arrive => {
            let answered = match outcome {
                KEPT | HAD | AHEAD => frames == 0 && deaf == 0,
                ACCEPTED => (TOKEN_LEN..=FRAMES_LEN).contains(&frames) && (deaf == 0 || deaf == own),
                _ => false,
            };
            answered && usize::from(deliveries) <= DELIVERIES_LEN
        }
    }
}

/// What a call with this answer may alter, in the blocks' order.
fn writable(arena: &Arena, call: &Call, answer: Answer) -> [Range<usize>; 3] {
    if answer.refusal != 0 {
        return [0..0, 0..0, 0..0];
    }
    let first = |part, count: usize| {
        let range = arena.range(part);
        range.start..range.end.min(range.start + count)
    };
    let record = if call.ask == Ask::Resend { 0 } else { RECORD_LEN };
    [
        first(Part::Record, record),
        first(Part::Frames, answer.frames.into()),
        first(Part::Deliveries, answer.deliveries.into()),
    ]
}
