//! The questions at the door, one by one and in their order, each asked by the calls that ask it.

use crate::support::*;
use oracle::layout::*;
use oracle::{arrive, found, post, resend};

/// Founds with these buffer lengths; gives the refusal. Nothing is altered by one.
fn founding(station_len: usize, members: &[u8], own: u16, ring: u32, token_len: usize) -> u16 {
    let mut station = vec![0xA5; station_len];
    let mut token = vec![0xA5; token_len];
    let answer = found(&mut station, members, own, ring, &mut token);
    if answer.refusal != 0 {
        assert!(station.iter().chain(&token).all(|byte| *byte == 0xA5));
        assert_eq!((answer.outcome, answer.frames), (0, 0));
    }
    answer.refusal
}

fn founding_with(ids: &[u16], own: u16, ring: u32) -> u16 {
    founding(LEN, &list(ids), own, ring, 32)
}

#[test]
fn founding_asks_for_room() {
    assert_eq!(founding(LEN - 1, &list(&[3, 7]), 3, 4, 32), 1);
    assert_eq!(founding(LEN, &list(&[3, 7]), 3, 4, 31), 1);
    assert_eq!(founding(0, &[], 0, 0, 0), 1);
    assert_eq!(founding(LEN, &list(&[3, 7]), 3, 4, 32), 0);
}

#[test]
fn founding_leaves_bytes_past_the_record() {
    let mut station = vec![0xA5; LEN + 9];
    let mut token = vec![0xA5; 35];
    let answer = found(&mut station, &list(&[3, 7]), 3, 4, &mut token);
    assert_eq!(answer.outcome, FOUNDED);
    assert_eq!(station[..LEN], Station::new(&[3, 7], 3, 4).0.bytes);
    assert!(station[LEN..].iter().chain(&token[32..]).all(|byte| *byte == 0xA5));
}

#[test]
fn founding_asks_3_to_6() {
    assert_eq!(founding_with(&[3], 3, 4), 3);
    assert_eq!(founding_with(&[], 3, 4), 3);
    assert_eq!(founding_with(&[1, 2, 3, 4, 5, 6, 7, 8, 9], 3, 4), 3);
    assert_eq!(founding(LEN, &[3, 0, 7, 0, 9], 3, 4, 32), 3);
    assert_eq!(founding_with(&[7, 3], 3, 4), 4);
    assert_eq!(founding_with(&[0, 3], 3, 4), 4);
    assert_eq!(founding_with(&[3, 0], 3, 4), 4);
    assert_eq!(founding_with(&[3, 3], 3, 4), 4);
    assert_eq!(founding_with(&[3, 9, 7, 9], 3, 4), 4);
    assert_eq!(founding_with(&[3, 7], 9, 4), 5);
    assert_eq!(founding_with(&[3, 7], 0, 4), 5);
    assert_eq!(founding_with(&[3, 7], 7, 0), 6);
    assert_eq!(founding_with(&[3, 7], 7, 2_000_000_001), 6);
    assert_eq!(founding_with(&[3, 7], 7, 2_000_000_000), 0);
    assert_eq!(founding_with(&[1, 9, 2, 8, 3, 7, 4, 65_535], 65_535, 1), 0);
}

#[test]
fn posting_asks_2_7_8_9() {
    let mut short = vec![0; LEN - 1];
    assert_eq!(post(&mut short, 2, &[0; 65]).refusal, 2);
    let mut station = Station::fresh();
    assert_eq!(station.post(2, &[0; 65]).refusal, 7);
    assert_eq!(station.post(2, b"").refusal, 8);
    assert_eq!(station.post(65_535, b"").refusal, 8);
    for _ in 0..16 {
        assert_eq!(station.post(1, &[1; 64]).outcome, POSTED);
    }
    assert_eq!(station.post(2, b"").refusal, 8);
    assert_eq!(station.post(0, b"").refusal, 9);
}

#[test]
fn a_post_stands_behind_the_others() {
    let mut station = Station::fresh();
    let mut expected = station.bytes.clone();
    station.post(1, b"one");
    station.post(0, b"seven");
    expected[POST_COUNT] = 2;
    expected[POST_SERVICES] = 1;
    expected[POST_LENGTHS..POST_LENGTHS + 2].copy_from_slice(&[3, 5]);
    expected[POST_CONTENTS..POST_CONTENTS + 3].copy_from_slice(b"one");
    expected[POST_CONTENTS + 64..POST_CONTENTS + 69].copy_from_slice(b"seven");
    assert_same(&station.bytes, &expected);
}

#[test]
fn arrival_asks_for_room_then_for_a_whole_record() {
    let frame = message(1, 3, 0, b"");
    for (frames_len, deliveries_len, refusal) in [(1471, 2752, 1), (1472, 2751, 1), (1472, 2752, 2)] {
        let mut station = vec![0; LEN];
        let mut frames = vec![0; frames_len];
        let mut deliveries = vec![0; deliveries_len];
        assert_eq!(arrive(&mut station, &frame, &mut frames, &mut deliveries).refusal, refusal);
    }
    let mut long = Station::fresh();
    long.bytes.push(0);
    assert_eq!(long.arrive(b"").answer.refusal, 2);
}

#[test]
fn a_token_is_asked_15_to_18() {
    let mut station = Station::with_level(5);
    station.hold(9, 9, 0, b"");
    station.set_u32(TOKEN_NUMBER, 40);
    let refused = |token: Token| station.clone().arrive(&token.frame()).answer.refusal;
    let token = Token { number: 41, ..Token::with_highest(9) };
    assert_eq!(refused(Token { addressee: 9, number: 40, ..Token::with_highest(4) }), 15);
    assert_eq!(refused(Token { number: 40, ..Token::with_highest(4) }), 16);
    assert_eq!(refused(Token { number: 2_000_000_000, ..Token::with_highest(4) }), 17);
    assert_eq!(refused(Token { number: 1_999_999_999, ..token.clone() }), 0);
    assert_eq!(refused(Token { number: 41, ..Token::with_highest(4) }), 18);
    assert_eq!(refused(Token { number: 41, ..Token::with_highest(8) }), 18);
    assert_eq!(refused(token), 0);
}

#[test]
fn question_18_where_nothing_is_held() {
    let refused = |highest: u32| {
        let frame = Token::with_highest(highest).frame();
        Station::with_marks(50).arrive(&frame).answer.refusal
    };
    assert_eq!(refused(49), 18);
    assert_eq!(refused(50), 0);
}

#[test]
fn resending_asks_1_2_19() {
    let mut station = Station::fresh();
    assert_eq!(resend(&[], &mut [0; 1471]).refusal, 1);
    assert_eq!(resend(&station.bytes[1..], &mut [0; 1472]).refusal, 2);
    assert_eq!(station.resend().answer.refusal, 19);
    let token = station.arrive(&Token::with_highest(0).frame()).token().to_vec();
    let reply = station.resend();
    assert_eq!((reply.answer.outcome, reply.answer.frames), (RESENT, 32));
    assert_eq!(reply.frames, [token]);
}
