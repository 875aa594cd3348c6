//! Any bytes at all: calls answer, and what they accept stays whole. The checks that hold of all calls
//! are made in support.rs.

use crate::support::*;
use oracle::layout::*;

/// Alters a few bytes, mostly by little.
fn alter(chance: &mut Chance, bytes: &mut [u8]) {
    for _ in 0..chance.below(3) {
        if !bytes.is_empty() {
            let at = chance.below(bytes.len());
            bytes[at] = match chance.below(4) {
                0 => chance.below(256) as u8,
                1 => bytes[at].wrapping_add(1),
                2 => bytes[at].wrapping_sub(1),
                _ => 0,
            };
        }
    }
}

/// A station somewhere in its life, near a number.
fn station(chance: &mut Chance, near: u32) -> Station {
    let mut station = Station::with_marks(near);
    station.set_u32(TOKEN_NUMBER, 4);
    for _ in 0..chance.below(20) {
        let number = near.saturating_add(chance.below(34) as u32);
        station.arrive(&message(number, 3, chance.below(2) as u16, &[1; 64][..chance.below(65)]));
        station.post(chance.below(2) as u16, &[2; 64][..chance.below(65)]);
    }
    station
}

/// A frame that may fit a station near that number.
fn frame(chance: &mut Chance, near: u32) -> Vec<u8> {
    let mut number = || near.saturating_add(chance.below(40) as u32).min(2_000_000_000);
    let (one, two, three) = (number(), number(), number());
    if chance.below(3) == 0 {
        return message(one, 9, chance.below(2) as u16, &[3; 64][..chance.below(65)]);
    }
    let mut requests: Vec<u32> = [one.min(two), three.min(one), 1].to_vec();
    requests.truncate(chance.below(4));
    Token {
        addressee: [7, 7, 7, 9][chance.below(4)],
        number: [1, 4, 5, 100, 1_999_999_999, 2_000_000_000][chance.below(6)],
        aru: one.min(two),
        blocker: if one <= two { 0 } else { [3, 7, 9][chance.below(3)] },
        round_count: chance.below(129) as u16,
        backlog: chance.below(129) as u16,
        requests,
        ..Token::with_highest(one)
    }
    .frame()
}

#[test]
fn calls_answer_to_any_bytes() {
    let mut chance = Chance::new(5);
    let mut outcomes = [0; 8];
    let mut refusals = [0; 20];
    for _ in 0..40_000 {
        let near = [0, 1, 70, 1_999_999_960, 1_999_999_990, 2_000_000_000][chance.below(6)];
        let mut station = station(&mut chance, near);
        if chance.below(3) == 0 {
            alter(&mut chance, &mut station.bytes[..POST_COUNT + 60]);
        }
        let mut frame = frame(&mut chance, near);
        alter(&mut chance, &mut frame);
        let answer = station.arrive(&frame).answer;
        outcomes[usize::from(answer.outcome)] += 1;
        refusals[usize::from(answer.refusal)] += 1;
        assert!(answer.refusal != 0 || station.is_whole());
    }
    for outcome in [KEPT, HAD, AHEAD, ACCEPTED] {
        assert!(outcomes[usize::from(outcome)] > 100, "outcomes {outcomes:?}");
    }
    for refusal in (10..=18).chain([2]) {
        assert!(refusals[refusal] > 10, "refusals {refusals:?}");
    }
}
