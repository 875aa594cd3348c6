//! Accepted tokens: what they write, deliver and leave in the record.

use crate::support::*;
use oracle::layout::*;

#[test]
fn repeats_come_first_unchanged_and_are_struck_off() {
    let mut station = Station::fresh();
    for number in [1, 2, 4] {
        station.arrive(&message(number, 9, (number % 2) as u16, &[number as u8; 9]));
    }
    station.post(1, b"new");
    let token = Token { aru: 1, blocker: 3, requests: vec![3, 4, 5, 2], ..Token::with_highest(5) };
    let reply = station.arrive(&token.frame());
    let expected = [
        message(4, 9, 0, &[4; 9]),
        message(2, 9, 0, &[2; 9]),
        message(6, 7, 1, b"new"),
        Token { addressee: 9, number: 2, highest: 6, round_count: 3, requests: vec![3, 5], ..token }.frame(),
    ];
    assert_eq!(reply.frames, expected);
    assert_eq!(station.resend().frames, expected[3..]);
}

#[test]
fn requests_at_or_below_the_safe_mark_stay() {
    let mut station = Station::with_marks(40);
    station.hold(42, 3, 0, b"");
    let token = Token { aru: 3, blocker: 9, requests: vec![10, 42, 40, 74], ..Token::with_highest(80) };
    let reply = station.arrive(&token.frame());
    assert_eq!(reply.frames[0], message(42, 3, 0, b""));
    let requests = Token::of(reply.token()).requests;
    assert_eq!(requests[..5], [10, 40, 74, 41, 43]);
    assert_eq!(requests.len(), 16);
}

#[test]
fn sixteen_repeats_fill_the_frames_buffer() {
    let mut station = Station::fresh();
    for number in 1..=32 {
        station.hold(number, 3, 1, &[7; 64]);
    }
    station.set_u32(LEVEL, 32);
    let token = Token { aru: 0, blocker: 9, requests: (17..=32).collect(), ..Token::with_highest(90) };
    let reply = station.arrive(&token.frame());
    assert_eq!(reply.answer.frames, 16 * 86 + 32);
    assert_eq!((station.bytes[LAST_COUNT], Token::of(reply.token()).round_count), (16, 16));
}

#[test]
fn sixteen_repeats_and_sixteen_requests() {
    let mut station = Station::fresh();
    for number in 17..=32 {
        station.hold(number, 3, 1, &[7; 64]);
    }
    let token = Token { aru: 0, blocker: 9, requests: (17..=32).collect(), ..Token::with_highest(90) };
    assert_eq!(station.arrive(&token.frame()).answer.frames, 1472);
}

/// The number of new messages with this many posts at a token.
fn new_messages(station: &Station, posts: usize, token: Token) -> usize {
    let mut station = station.clone();
    for _ in 0..posts {
        station.post(0, b"");
    }
    let frames = station.arrive(&token.frame()).frames.len();
    assert_eq!(usize::from(station.bytes[POST_COUNT]), posts + 1 - frames);
    frames - 1
}

#[test]
fn new_messages_are_bounded() {
    let fresh = Station::fresh();
    let token = Token::with_highest(0);
    assert_eq!(new_messages(&fresh, 3, token.clone()), 3);
    assert_eq!(new_messages(&fresh, 16, token.clone()), 8);
    assert_eq!(new_messages(&fresh, 16, Token { round_count: 20, ..token.clone() }), 4);
    assert_eq!(new_messages(&fresh, 16, Token { round_count: 128, ..token }), 0);
    for (highest, new) in [(24, 8), (25, 7), (31, 1), (32, 0), (33, 0), (2_000_000_000, 0)] {
        assert_eq!(new_messages(&fresh, 16, Token::with_highest(highest)), new);
    }
}

#[test]
fn new_messages_end_at_2_000_000_000() {
    let station = Station::with_marks(1_999_999_995);
    for (highest, new) in [(1_999_999_995, 5), (1_999_999_999, 1), (2_000_000_000, 0)] {
        assert_eq!(new_messages(&station, 16, Token::with_highest(highest)), new);
    }
    let last = Station::with_marks(2_000_000_000);
    assert_eq!(new_messages(&last, 16, Token::with_highest(2_000_000_000)), 0);
}

#[test]
fn the_record_after_new_messages_is_exact() {
    let mut station = Station::fresh();
    for post in 0..10u8 {
        station.post((post % 2).into(), &vec![post; post.into()]);
    }
    let reply = station.arrive(&Token::with_highest(0).frame());
    let mut expected = Station::fresh();
    for post in 0..8u8 {
        expected.hold(u32::from(post) + 1, 7, (post % 2).into(), &vec![post; post.into()]);
    }
    expected.set_u32(LEVEL, 8);
    for post in 8..10u8 {
        expected.post((post % 2).into(), &vec![post; post.into()]);
    }
    expected.set_u32(DELIVERED, 1);
    expected.set_u32(ARU, 8);
    expected.set_u32(TOKEN_NUMBER, 2);
    expected.bytes[LAST_COUNT] = 8;
    expected.bytes[OWN_PART] = 2;
    let token = Token { addressee: 9, number: 2, round_count: 8, backlog: 2, ..Token::with_highest(8) };
    expected.bytes[TOKEN_SIZE] = 32;
    expected.bytes[TOKEN..][..32].copy_from_slice(&token.frame());
    assert_same(&station.bytes, &expected.bytes);
    assert_eq!(reply.deliveries, [message(1, 7, 0, b"")]);
}

#[test]
fn a_shorter_token_leaves_no_bytes_of_the_longer() {
    let mut station = Station::with_marks(40);
    let longer = Token { requests: (1..=16).collect(), ..Token::with_highest(40) };
    station.arrive(&longer.frame());
    assert_eq!(station.bytes[TOKEN_SIZE], 96);
    station.arrive(&Token { number: 4, ..Token::with_highest(40) }.frame());
    assert_eq!(station.bytes[TOKEN_SIZE], 32);
    assert!(station.bytes[TOKEN + 32..POST_COUNT].iter().all(|byte| *byte == 0));
}

#[test]
fn letting_go_frees_places() {
    let mut station = Station::fresh();
    for number in 1..=4 {
        station.arrive(&message(number, 3, 1, &[9; 64]));
    }
    station.arrive(&Token::with_highest(4).frame());
    assert_eq!((station.u32(SAFE), station.u32(DELIVERED)), (0, 0));
    let reply = station.arrive(&Token { number: 4, aru: 3, blocker: 9, ..Token::with_highest(4) }.frame());
    assert_eq!(reply.deliveries, [1, 2, 3].map(|number| message(number, 3, 1, &[9; 64])));
    assert_eq!((station.u32(SAFE), station.u32(DELIVERED), station.u32(LEVEL)), (3, 3, 4));
    let mut held = Station::fresh();
    held.hold(4, 3, 1, &[9; 64]);
    assert_eq!(station.bytes[HELD_SENDERS..ARU], held.bytes[HELD_SENDERS..ARU]);
}

#[test]
fn all_32_are_let_go_at_once() {
    let mut station = Station::with_level(32);
    station.arrive(&Token::with_highest(32).frame());
    station.set_u32(DELIVERED, 0);
    let reply = station.arrive(&Token { number: 4, ..Token::with_highest(32) }.frame());
    assert_eq!((reply.deliveries.len(), station.u32(SAFE)), (32, 32));
    assert!(station.bytes[HELD_SENDERS..ARU].iter().all(|byte| *byte == 0));
}

/// Step 7 goes by the new safe mark while the places of what is let go are still in use.
#[test]
fn missing_numbers_past_the_old_window_are_asked_for() {
    let mut station = Station::with_level(30);
    station.hold(32, 9, 0, b"");
    station.set_u32(ARU, 30);
    let token = Token { aru: 29, blocker: 9, requests: vec![34], ..Token::with_highest(40) };
    let requests = Token::of(station.arrive(&token.frame()).token()).requests.clone();
    assert_eq!(station.u32(SAFE), 29);
    assert_eq!(requests, [34, 31, 33, 35, 36, 37, 38, 39, 40]);
}

#[test]
fn requests_end_at_safe_mark_32_and_at_the_highest() {
    let mut station = Station::with_level(28);
    let token = Token { aru: 0, blocker: 9, ..Token::with_highest(90) };
    assert_eq!(Token::of(station.arrive(&token.frame()).token()).requests, [29, 30, 31, 32]);
    let mut station = Station::with_marks(1_999_999_998);
    let token = Token { aru: 0, blocker: 9, ..Token::with_highest(2_000_000_000) };
    let requests = Token::of(station.arrive(&token.frame()).token()).requests.clone();
    assert_eq!(requests, [1_999_999_999, 2_000_000_000]);
}

#[test]
fn round_count_is_at_most_128() {
    let mut station = Station::with_level(5);
    let token = Token { round_count: 126, requests: vec![1, 2, 3], ..Token::with_highest(5) };
    assert_eq!(Token::of(station.arrive(&token.frame()).token()).round_count, 128);
    let mut station = Station::with_level(5);
    station.bytes[LAST_COUNT] = 16;
    let token = Token { round_count: 9, ..Token::with_highest(5) };
    assert_eq!(Token::of(station.arrive(&token.frame()).token()).round_count, 0);
}

#[test]
fn the_stall_count_ends_where_aru_moves_or_nobody_blocks() {
    for (aru, blocker, stall) in [(5, 9, 4), (4, 9, 0), (10, 0, 0)] {
        let mut station = Station::with_level(10);
        station.set_u32(ARU, aru.max(5));
        station.bytes[STALL] = 3;
        station.arrive(&Token { aru, blocker, ..Token::with_highest(10) }.frame());
        assert_eq!((station.u32(ARU), station.bytes[STALL]), (aru, stall));
    }
}

#[test]
fn deaf_from_the_eleventh_visit_on() {
    let mut station = Station::fresh();
    for visit in 1..=300u32 {
        let token = Token { number: 3 * visit, aru: 0, blocker: 7, ..Token::with_highest(1) };
        let answer = station.arrive(&token.frame()).answer;
        assert_eq!(answer.deaf, if visit > 10 { 7 } else { 0 }, "visit {visit}");
        assert_eq!(u32::from(station.bytes[STALL]), visit.min(255));
    }
    let other = Token { number: 1000, aru: 0, blocker: 9, ..Token::with_highest(1) };
    assert_eq!(station.clone().arrive(&other.frame()).answer.deaf, 0);
    station.arrive(&message(1, 3, 0, b""));
    let token = Token { number: 1000, aru: 0, blocker: 7, ..Token::with_highest(1) };
    assert_eq!(station.arrive(&token.frame()).answer.deaf, 0);
    assert_eq!(station.bytes[STALL], 0);
}

#[test]
fn the_token_goes_round_in_circulation_order() {
    let ids = [2, 9, 4, 65_535];
    for (place, own) in ids.into_iter().enumerate() {
        let (mut station, mut token) = Station::new(&ids, own, 1);
        token[10..12].copy_from_slice(&own.to_le_bytes());
        let next = station.arrive(&token).token()[10..12].to_vec();
        assert_eq!(next, ids[(place + 1) % 4].to_le_bytes());
    }
}
