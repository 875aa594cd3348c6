//! Messages that arrive: what is kept and delivered, and the leave to resend that they end.

use crate::support::*;
use oracle::layout::*;

#[test]
fn a_message_raises_the_level_as_far_as_it_can() {
    let mut station = Station::fresh();
    for number in [2, 3, 5] {
        let reply = station.arrive(&message(number, 9, 0, b""));
        assert_eq!((reply.answer.outcome, reply.answer.deliveries), (KEPT, 0));
    }
    let reply = station.arrive(&message(1, 3, 0, b"one"));
    let numbers = [message(1, 3, 0, b"one"), message(2, 9, 0, b""), message(3, 9, 0, b"")];
    assert_eq!(reply.deliveries, numbers);
    assert_eq!((station.u32(LEVEL), station.u32(DELIVERED), station.u32(SAFE)), (3, 3, 0));
}

#[test]
fn a_kept_message_stands_at_its_place() {
    let mut station = Station::with_marks(40);
    let mut expected = station.clone();
    station.arrive(&message(64, 9, 1, b"content"));
    expected.hold(0, 9, 1, b"content");
    assert_same(&station.bytes, &expected.bytes);
}

#[test]
fn a_safe_message_waits_and_keeps_the_others_back() {
    let mut station = Station::fresh();
    assert_eq!(station.arrive(&message(1, 3, 1, b"")).answer.deliveries, 0);
    assert_eq!(station.arrive(&message(2, 3, 0, b"")).answer.deliveries, 0);
    assert_eq!((station.u32(LEVEL), station.u32(DELIVERED)), (2, 0));
}

#[test]
fn had_and_ahead_end_the_leave_and_deliver() {
    for (number, outcome) in [(3, HAD), (33, AHEAD), (2_000_000_000, AHEAD), (32, KEPT)] {
        let mut station = Station::with_level(3);
        station.arrive(&Token::with_highest(3).frame());
        station.set_u32(DELIVERED, 0);
        assert_eq!(station.bytes[TOKEN_SIZE], 32);
        let reply = station.arrive(&message(number, 9, 0, b""));
        assert_eq!((reply.answer.outcome, reply.deliveries.len()), (outcome, 3));
        assert!(station.bytes[TOKEN_SIZE..POST_COUNT].iter().all(|byte| *byte == 0));
        assert_eq!(station.resend().answer.refusal, 19);
    }
    let mut station = Station::with_marks(5);
    assert_eq!(station.arrive(&message(5, 9, 0, b"")).answer.outcome, HAD);
}
