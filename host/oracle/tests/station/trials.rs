//! The specification's trials, the first token, and the bench's example.

use crate::support::*;
use oracle::layout::*;

#[test]
fn the_first_token() {
    let (_, token) = Station::new(&[3, 7], 7, 4);
    let mut expected = vec![0x1E, 0, 2, 0, 4, 0, 0, 0, 3, 0, 3, 0, 1, 0, 0, 0];
    expected.extend([0; 16]);
    assert_eq!(token, expected);
}

#[test]
fn the_fresh_record() {
    let (station, _) = Station::new(&[3, 9, 0x0107], 9, 0x0A0B_0C0D);
    let mut expected = vec![9, 0, 0, 0x0D, 0x0C, 0x0B, 0x0A, 3, 3, 0, 9, 0, 7, 1];
    expected.resize(3429, 0);
    assert_same(&station.bytes, &expected);
}

#[test]
fn message_32_kept_33_ahead_32_again_had() {
    let mut station = Station::fresh();
    assert_eq!(station.arrive(&message(32, 3, 0, b"first")).answer.outcome, KEPT);
    assert_eq!(station.arrive(&message(33, 3, 0, b"")).answer.outcome, AHEAD);
    let kept = station.clone();
    assert_eq!(station.arrive(&message(32, 9, 1, b"second")).answer.outcome, HAD);
    assert_same(&station.bytes, &kept.bytes);
}

/// The aru and the blocker that a token with highest 10 leaves with.
fn leaves(level: u32, aru: u32, blocker: u16) -> (u32, u16) {
    let token = Token { aru, blocker, ..Token::with_highest(10) };
    let left = Token::of(Station::with_level(level).arrive(&token.frame()).token());
    (left.aru, left.blocker)
}

#[test]
fn aru_and_blocker() {
    assert_eq!(leaves(7, 10, 0), (7, 7));
    assert_eq!(leaves(7, 5, 9), (5, 9));
    assert_eq!(leaves(10, 5, 7), (10, 0));
}

#[test]
fn forwarded_10_then_7_safe_mark_7() {
    let mut station = Station::with_level(10);
    station.arrive(&Token::with_highest(10).frame());
    assert_eq!((station.u32(ARU), station.u32(SAFE)), (10, 0));
    let second = Token { number: 4, aru: 7, blocker: 9, ..Token::with_highest(10) };
    station.arrive(&second.frame());
    assert_eq!((station.u32(ARU), station.u32(ARU_BEFORE), station.u32(SAFE)), (7, 10, 7));
}

#[test]
fn round_count_30_own_last_10_three_repeats() {
    let mut station = Station::with_level(3);
    station.bytes[LAST_COUNT] = 10;
    for _ in 0..16 {
        station.post(0, b"post");
    }
    let token = Token { round_count: 30, requests: vec![1, 2, 3], ..Token::with_highest(3) };
    let reply = station.arrive(&token.frame());
    assert_eq!(reply.frames.len(), 3 + 1 + 1);
    assert_eq!(reply.frames[3], message(4, 7, 0, b"post"));
    assert_eq!(Token::of(reply.token()).round_count, 24);
    assert_eq!((station.bytes[LAST_COUNT], station.bytes[POST_COUNT]), (4, 15));
}

#[test]
fn round_count_24_own_last_0_no_new_message() {
    let mut station = Station::fresh();
    station.post(0, b"post");
    let token = Token { round_count: 24, ..Token::with_highest(0) };
    assert_eq!(station.arrive(&token.frame()).frames.len(), 1);
    assert_eq!(station.bytes[POST_COUNT], 1);
}

#[test]
fn content_sizes() {
    for (length, size) in [(0, 22), (64, 86)] {
        let mut station = Station::fresh();
        assert_eq!(station.post(1, &vec![5; length]).outcome, POSTED);
        assert_eq!(station.arrive(&Token::with_highest(0).frame()).frames[0].len(), size);
    }
    assert_eq!(Station::fresh().post(0, &[5; 65]).refusal, 7);
}

#[test]
fn sixteen_requests_96_bytes_seventeen_12() {
    let mut station = Station::fresh();
    let asked = Token { aru: 0, blocker: 7, ..Token::with_highest(20) };
    let token = station.arrive(&asked.frame()).token().to_vec();
    assert_eq!(token.len(), 96);
    assert_eq!(Token::of(&token).requests, (1..=16).collect::<Vec<_>>());
    let longer = Token { requests: (1..=17).collect(), ..asked };
    assert_eq!(Station::fresh().arrive(&longer.frame()).answer.refusal, 12);
}

#[test]
fn the_last_token_and_a_token_repeated() {
    let last = Token { number: 2_000_000_000, ..Token::with_highest(0) };
    assert_eq!(Station::fresh().arrive(&last.frame()).answer.refusal, 17);
    let mut station = Station::fresh();
    let token = Token::with_highest(0).frame();
    assert_eq!(station.arrive(&token).answer.outcome, ACCEPTED);
    assert_eq!(station.arrive(&token).answer.refusal, 16);
}

#[test]
fn the_bench_example() {
    let (first, mut token) = Station::new(&[3, 7], 3, 4);
    let mut stations = [first, Station::new(&[3, 7], 7, 4).0];
    stations[1].post(1, b"up");
    stations[0].post(0, b"ok");
    let mut printed = Vec::new();
    for visit in 0..5 {
        let here = visit % 2;
        let reply = stations[here].arrive(&token);
        token = reply.token().to_vec();
        printed.extend(reply.deliveries.into_iter().map(|frame| (here, frame)));
        let (_, broadcasts) = reply.frames.split_last().unwrap();
        for frame in broadcasts {
            let heard = stations[1 - here].arrive(frame);
            assert_eq!(heard.answer.outcome, KEPT);
            printed.extend(heard.deliveries.into_iter().map(|frame| (1 - here, frame)));
        }
    }
    let ok = message(1, 3, 0, b"ok");
    let up = message(2, 7, 1, b"up");
    assert_eq!(printed, [(0, ok.clone()), (1, ok), (1, up.clone()), (0, up)]);
}
