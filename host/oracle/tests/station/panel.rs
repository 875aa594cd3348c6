//! The panel's byte: how many messages are held and undelivered, after each kind of call, and question 2
//! where it says another number. That every call of every test leaves it right is checked in support.rs.

use crate::support::*;
use oracle::layout::*;

/// What the panel reads.
fn panel(station: &Station) -> u8 {
    station.bytes[PANEL]
}

/// The panel's byte after each of these messages, as numbers and services.
fn after_each(station: &mut Station, messages: &[(u32, u16)]) -> Vec<u8> {
    let mut seen = Vec::new();
    for (number, service) in messages {
        assert_eq!(station.arrive(&message(*number, 9, *service, b"")).answer.outcome, KEPT);
        seen.push(panel(station));
    }
    seen
}

#[test]
fn it_stands_behind_the_own_id() {
    assert_eq!((OWN, PANEL, RING, LEN), (0, 2, 3, 3429));
}

#[test]
fn founding_writes_0() {
    assert_eq!(panel(&Station::fresh()), 0);
    let mut again = Station::with_level(7);
    assert_eq!(panel(&again), 7);
    assert_eq!(oracle::found(&mut again.bytes, &list(&[3, 7]), 3, 4, &mut [0; 32]).outcome, FOUNDED);
    assert_eq!(panel(&again), 0);
}

#[test]
fn agreed_messages_in_order_are_delivered_at_once() {
    assert_eq!(after_each(&mut Station::fresh(), &[(1, 0), (2, 0), (3, 0)]), [0, 0, 0]);
}

#[test]
fn messages_behind_a_gap_count_until_it_is_filled() {
    let mut station = Station::fresh();
    assert_eq!(after_each(&mut station, &[(2, 0), (3, 0), (5, 0), (32, 0)]), [1, 2, 3, 4]);
    assert_eq!(after_each(&mut station, &[(1, 0), (4, 0)]), [2, 1]);
    assert_eq!((station.u32(DELIVERED), station.u32(LEVEL)), (5, 5));
}

#[test]
fn a_safe_message_counts_while_it_waits_and_so_does_what_is_behind_it() {
    let mut station = Station::fresh();
    assert_eq!(after_each(&mut station, &[(1, 0), (2, 1), (3, 0), (4, 1)]), [0, 1, 2, 3]);
    let token = Token::with_highest(4);
    station.arrive(&token.frame());
    assert_eq!((panel(&station), station.u32(SAFE)), (3, 0));
    station.arrive(&Token { number: 4, aru: 3, blocker: 9, ..token.clone() }.frame());
    assert_eq!((panel(&station), station.u32(SAFE), station.u32(DELIVERED)), (1, 3, 3));
    for (number, left) in [(7, 1), (10, 0)] {
        station.arrive(&Token { number, ..token.clone() }.frame());
        assert_eq!(panel(&station), left);
    }
}

/// Held until all are known to have them, but delivered: they don't count, let go or not.
#[test]
fn delivered_messages_do_not_count() {
    let mut station = Station::fresh();
    after_each(&mut station, &[(1, 0), (2, 0), (3, 0), (5, 0)]);
    let held = |station: &Station, number: usize| station.bytes[HELD_SENDERS + 2 * number] != 0;
    assert!(held(&station, 1) && held(&station, 3));
    assert_eq!(panel(&station), 1);
    let token = Token { aru: 3, blocker: 7, ..Token::with_highest(5) };
    for (number, safe) in [(1, 0), (4, 3)] {
        station.arrive(&Token { number, ..token.clone() }.frame());
        assert_eq!((panel(&station), station.u32(SAFE)), (1, safe));
    }
    assert!(!held(&station, 1) && !held(&station, 3) && held(&station, 5));
}

#[test]
fn a_visit_counts_its_own_new_messages() {
    let mut station = Station::fresh();
    for post in 0..10 {
        station.post((post == 2).into(), b"");
    }
    assert_eq!(panel(&station), 0);
    station.arrive(&Token::with_highest(0).frame());
    assert_eq!((panel(&station), station.u32(DELIVERED), station.u32(LEVEL)), (6, 2, 8));
    let mut gap = Station::fresh();
    gap.post(0, b"");
    gap.arrive(&Token::with_highest(3).frame());
    assert_eq!((panel(&gap), gap.u32(LEVEL)), (1, 0));
}

#[test]
fn all_32_are_delivered_and_let_go_at_once() {
    let mut station = Station::fresh();
    after_each(&mut station, &(1..=32).map(|number| (number, 1)).collect::<Vec<_>>());
    station.arrive(&Token::with_highest(32).frame());
    assert_eq!(panel(&station), 32);
    station.arrive(&Token { number: 4, ..Token::with_highest(32) }.frame());
    assert_eq!((panel(&station), station.u32(SAFE)), (0, 32));
}

/// A message that is not kept doesn't count; but it delivers, too.
#[test]
fn had_and_ahead() {
    for (number, outcome) in [(2, HAD), (33, AHEAD)] {
        let mut station = Station::with_level(3);
        assert_eq!(panel(&station), 3);
        assert_eq!(station.arrive(&message(number, 9, 0, b"")).answer.outcome, outcome);
        assert_eq!(panel(&station), 0);
        let mut waits = Station::fresh();
        after_each(&mut waits, &[(2, 0)]);
        assert_eq!(waits.arrive(&message(number, 9, 0, b"")).answer.outcome, outcome);
        assert_eq!(panel(&waits), 1);
    }
}

#[test]
fn posting_resending_and_refusals_leave_it() {
    let mut station = Station::fresh();
    after_each(&mut station, &[(2, 0), (4, 1)]);
    station.arrive(&Token { aru: 0, blocker: 7, ..Token::with_highest(4) }.frame());
    assert_eq!(station.post(1, b"waits").outcome, POSTED);
    assert_eq!(station.resend().answer.outcome, RESENT);
    assert_eq!(station.arrive(&message(1, 8, 0, b"")).answer.refusal, 14);
    assert_eq!(station.arrive(&Token::with_highest(4).frame()).answer.refusal, 16);
    assert_eq!(panel(&station), 2);
}

#[test]
fn every_count_from_0_to_32_comes_up() {
    let safe: Vec<_> = (1..=32).map(|number| (number, 1)).collect();
    assert_eq!(after_each(&mut Station::fresh(), &safe), (1..=32).collect::<Vec<_>>());
    let gap: Vec<_> = (2..=32).map(|number| (number, 0)).collect();
    assert_eq!(after_each(&mut Station::fresh(), &gap), (1..=31).collect::<Vec<_>>());
}

/// A station with this many messages held and undelivered, and a token that may be resent.
fn counting(count: u8) -> Station {
    let mut station = Station::fresh();
    after_each(&mut station, &(1..=count.into()).map(|number| (number, 1)).collect::<Vec<_>>());
    let token = Token { aru: 0, blocker: 9, ..Token::with_highest(32) };
    assert_eq!(station.arrive(&token.frame()).answer.outcome, ACCEPTED);
    assert_eq!(panel(&station), count);
    station
}

#[test]
fn any_other_value_is_not_whole() {
    let token = Token { number: 9, aru: 0, blocker: 9, ..Token::with_highest(32) }.frame();
    for count in 0..=32 {
        let station = counting(count);
        for value in 0..=255 {
            let mut station = station.clone();
            station.bytes[PANEL] = value;
            let refusal = if value == count { 0 } else { 2 };
            assert_eq!(station.resend().answer.refusal, refusal, "count {count}, panel {value}");
            assert_eq!(station.clone().post(0, b"").refusal, refusal);
            assert_eq!(station.clone().arrive(&message(33, 3, 0, b"")).answer.refusal, refusal);
            assert_eq!(station.arrive(&token).answer.refusal, refusal);
        }
    }
}

/// The count goes by the delivered mark, not by the safe mark or the level.
#[test]
fn the_count_of_a_record_as_it_stands() {
    for (delivered, count) in [(0, 9), (1, 8), (5, 4), (7, 2)] {
        let mut station = Station::with_level(7);
        station.hold(9, 3, 0, b"");
        station.hold(32, 3, 0, b"");
        station.bytes[DELIVERED] = delivered;
        for value in 0..=33 {
            station.bytes[PANEL] = value;
            assert_eq!(station.is_whole(), value == count, "delivered mark {delivered}, panel {value}");
        }
    }
}
