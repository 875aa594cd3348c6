//! Questions 10 to 14, which every frame is asked that arrives.

use crate::support::*;

fn refused(frame: &[u8]) -> u16 {
    Station::fresh().arrive(frame).answer.refusal
}

/// A frame with other bytes at a place.
fn altered(frame: &[u8], at: usize, bytes: &[u8]) -> Vec<u8> {
    let mut frame = frame.to_vec();
    frame[at..at + bytes.len()].copy_from_slice(bytes);
    frame
}

#[test]
fn a_frame_is_asked_10_and_11() {
    assert_eq!(refused(b""), 10);
    assert_eq!(refused(&[7, 0, 1, 0, 4, 0, 0, 0, 3]), 10);
    let frame = message(1, 3, 0, b"a");
    assert_eq!(refused(&frame[..22]), 10);
    assert_eq!(refused(&altered(&frame, 0, &[20])), 10);
    assert_eq!(refused(&altered(&frame, 0, &[22])), 10);
    assert_eq!(refused(&altered(&frame, 1, &[1])), 10);
    for kind in [0, 3, 255] {
        assert_eq!(refused(&altered(&frame, 2, &[kind])), 11);
    }
    assert_eq!(refused(&altered(&frame, 3, &[1])), 11);
    assert_eq!(refused(&[8, 0, 9, 0, 0, 0, 0, 0, 0, 0]), 11);
    assert_eq!(refused(&vec![0xFF; 65_537]), 11);
}

#[test]
fn a_message_is_asked_12() {
    let frame = message(1, 3, 0, b"a");
    assert_eq!(refused(&frame), 0);
    assert_eq!(refused(&altered(&frame, 4, &[0; 4])), 12);
    assert_eq!(refused(&altered(&frame, 4, &2_000_000_001u32.to_le_bytes())), 12);
    assert_eq!(refused(&altered(&frame, 8, &[0; 2])), 12);
    assert_eq!(refused(&altered(&frame, 10, &[0; 2])), 12);
    assert_eq!(refused(&altered(&frame, 12, &[0; 4])), 12);
    assert_eq!(refused(&altered(&frame, 12, &2_000_000_001u32.to_le_bytes())), 12);
    assert_eq!(refused(&altered(&frame, 12, &2_000_000_000u32.to_le_bytes())), 0);
    for at in 16..20 {
        assert_eq!(refused(&altered(&frame, at, &[1])), 12);
    }
    assert_eq!(refused(&altered(&frame, 20, &[2])), 12);
    assert_eq!(refused(&altered(&frame, 21, &[1])), 12);
    assert_eq!(refused(&message(1, 3, 0, &[1; 64])), 0);
    assert_eq!(refused(&message(1, 3, 0, &[1; 65])), 12);
    assert_eq!(refused(&altered(&frame[..21], 0, &[19])), 12);
    assert_eq!(refused(&altered(&frame[..10], 0, &[8])), 12);
}

#[test]
fn a_token_is_asked_12() {
    let token = Token { aru: 4, blocker: 9, requests: vec![5, 2], ..Token::with_highest(5) };
    let refused = |token: Token| refused(&token.frame());
    assert_eq!(refused(token.clone()), 0);
    assert_eq!(refused(Token { addressee: 0, ..token.clone() }), 12);
    assert_eq!(refused(Token { number: 0, ..token.clone() }), 12);
    assert_eq!(refused(Token { number: 2_000_000_001, ..token.clone() }), 12);
    assert_eq!(refused(Token { highest: 2_000_000_001, ..token.clone() }), 12);
    assert_eq!(refused(Token { highest: 2_000_000_000, ..token.clone() }), 0);
    assert_eq!(refused(Token { aru: 6, ..token.clone() }), 12);
    assert_eq!(refused(Token { aru: 5, ..token.clone() }), 12);
    assert_eq!(refused(Token { blocker: 0, ..token.clone() }), 12);
    assert_eq!(refused(Token { round_count: 129, ..token.clone() }), 12);
    assert_eq!(refused(Token { round_count: 128, ..token.clone() }), 0);
    for (backlog, refusal) in [(0, 0), (128, 0), (129, 12), (256, 12), (65_535, 12)] {
        assert_eq!(refused(Token { backlog, ..token.clone() }), refusal);
    }
    for requests in [vec![6], vec![0], vec![3, 1, 3]] {
        assert_eq!(refused(Token { requests, ..token.clone() }), 12);
    }
}

#[test]
fn a_token_has_as_many_requests_as_it_says() {
    let frame = Token { requests: vec![1, 2], ..Token::with_highest(5) }.frame();
    for count in [0, 1, 3, 17] {
        assert_eq!(refused(&altered(&frame, 30, &[count])), 12);
    }
    assert_eq!(refused(&altered(&frame[..39], 0, &[37])), 12);
    assert_eq!(refused(&altered(&frame[..31], 0, &[29])), 12);
    assert_eq!(refused(&altered(&frame[..10], 0, &[8])), 12);
}

#[test]
fn a_frame_is_asked_13_and_14() {
    let frame = message(1, 8, 0, b"");
    let token = Token { addressee: 9, blocker: 8, aru: 4, ..Token::with_highest(5) };
    for frame in [&frame, &token.frame()] {
        assert_eq!(refused(&altered(frame, 4, &[5])), 13);
        assert_eq!(refused(&altered(frame, 8, &[7])), 13);
        assert_eq!(refused(frame), 14);
    }
    assert_eq!(refused(&Token { addressee: 8, blocker: 3, ..token }.frame()), 14);
}
