//! The backlog on the token: the share that it leaves to a visit, and what goes on of it.

use crate::support::*;
use oracle::layout::*;

/// A fresh station where so many posts wait and so many waited when the token was last forwarded.
fn waiting(posts: u8, own_part: u8) -> Station {
    let mut station = Station::fresh();
    for post in 0..posts {
        assert_eq!(station.post(0, &[post]).outcome, POSTED);
    }
    station.bytes[OWN_PART] = own_part;
    station
}

fn with_backlog(backlog: u16) -> Token {
    Token { backlog, ..Token::with_highest(0) }
}

/// A visit's new messages and the backlog that it leaves. The own part is then what waits.
fn visit(station: &mut Station, token: &Token) -> (usize, u16) {
    let reply = station.arrive(&token.frame());
    let left = Token::of(reply.token());
    assert_eq!(station.bytes[OWN_PART], station.bytes[POST_COUNT]);
    assert_eq!(station.resend().frames, [reply.token()]);
    ((left.highest - token.highest) as usize, left.backlog)
}

#[test]
fn the_share_of_a_visit() {
    for (posts, others, new) in [
        (16, 0, 8),   // document 01's limit is the smaller one
        (16, 32, 8),  // 24 * 16 / 48 is 8
        (16, 33, 7),  // 384 / 49 is 7.8
        (16, 80, 4),  // 384 / 96
        (16, 112, 3), // 384 / 128
        (1, 22, 1),   // 24 / 23
        (1, 96, 1),   // 24 / 97 is 0
        (1, 128, 1),
        (4, 128, 1), // 96 / 132 is 0
        (5, 115, 1), // 120 / 120
        (5, 128, 1), // 120 / 133 is 0
        (3, 0, 3),   // fewer posts than the share
    ] {
        let mut station = waiting(posts, 0);
        let left = (others + u16::from(posts) - new as u16).min(128);
        let seen = visit(&mut station, &with_backlog(others));
        assert_eq!(seen, (new, left), "{posts} waiting, others' backlog {others}");
    }
}

#[test]
fn the_own_part_is_taken_off() {
    assert_eq!(visit(&mut waiting(16, 16), &with_backlog(96)), (4, 80 + 12));
    assert_eq!(visit(&mut waiting(16, 0), &with_backlog(96)), (3, 96 + 13));
    assert_eq!(visit(&mut waiting(0, 5), &with_backlog(5)), (0, 0));
    assert_eq!(visit(&mut waiting(0, 5), &with_backlog(6)), (0, 1));
}

#[test]
fn an_own_part_above_the_backlog_leaves_0_for_the_others() {
    for backlog in 0..16 {
        assert_eq!(visit(&mut waiting(16, 16), &with_backlog(backlog)), (8, 8));
        assert_eq!(visit(&mut waiting(0, 16), &with_backlog(backlog)), (0, 0));
    }
}

/// Repeats go out however small the share is; it only limits the new messages behind them.
#[test]
fn without_a_post_the_share_limits_nothing() {
    let mut station = Station::with_level(3);
    let token = Token { backlog: 128, requests: vec![1, 2, 3], ..Token::with_highest(3) };
    assert_eq!(station.arrive(&token.frame()).frames.len(), 3 + 1);
    assert_eq!(station.bytes[LAST_COUNT], 3);
    assert_eq!(visit(&mut waiting(0, 0), &with_backlog(128)), (0, 128));
}

#[test]
fn repeats_count_against_the_share() {
    for (repeats, new) in [(0, 4), (1, 3), (3, 1), (4, 0), (7, 0)] {
        let mut station = Station::with_level(7);
        for _ in 0..16 {
            station.post(0, b"");
        }
        let token = Token { backlog: 80, requests: (1..=repeats).collect(), ..Token::with_highest(7) };
        assert_eq!(visit(&mut station, &token), (new, 80 + 16 - new as u16), "{repeats} repeats");
    }
}

#[test]
fn the_round_may_leave_less_than_the_share() {
    for (round_count, new) in [(0, 4), (20, 4), (21, 3), (23, 1), (24, 0), (128, 0)] {
        let token = Token { round_count, ..with_backlog(80) };
        assert_eq!(visit(&mut waiting(16, 0), &token).0, new, "round count {round_count}");
    }
    assert_eq!(visit(&mut waiting(1, 0), &Token { round_count: 24, ..with_backlog(96) }), (0, 97));
}

#[test]
fn the_backlog_is_at_most_128() {
    for (backlog, left) in [(113, 127), (114, 128), (115, 128), (128, 128)] {
        assert_eq!(visit(&mut waiting(16, 0), &with_backlog(backlog)), (2, left));
    }
}

#[test]
fn a_backlog_of_129_is_12_and_changes_nothing() {
    for backlog in [129, 65_535] {
        assert_eq!(waiting(16, 16).arrive(&with_backlog(backlog).frame()).answer.refusal, 12);
    }
}

#[test]
fn an_own_part_of_17_is_not_whole() {
    for (own_part, whole) in [(0, true), (16, true), (17, false), (255, false)] {
        let mut station = waiting(2, own_part);
        assert_eq!(station.is_whole(), whole, "own part {own_part}");
        let refusal = if whole { 0 } else { 2 };
        assert_eq!(station.post(0, b"").refusal, refusal);
        assert_eq!(station.arrive(&with_backlog(3).frame()).answer.refusal, refusal);
    }
}

/// A refused token, a message and a post leave the own part as it is.
#[test]
fn only_an_accepted_token_changes_the_own_part() {
    let mut station = waiting(9, 4);
    let refused = Token { addressee: 9, ..with_backlog(50) };
    assert_eq!(station.arrive(&refused.frame()).answer.refusal, 15);
    station.arrive(&message(1, 3, 0, b""));
    station.post(0, b"");
    assert_eq!(station.bytes[OWN_PART], 4);
    station.arrive(&Token::with_highest(1).frame());
    assert_eq!(station.bytes[OWN_PART], 2);
}

/// Where nothing is forged, the token carries the sum of what waited at each station when it last forwarded.
#[test]
fn the_backlog_is_the_sum_of_the_own_parts() {
    let ids = [1, 8, 2, 7, 3, 6, 4, 5];
    let mut stations = ids.map(|own| Station::new(&ids, own, 4).0);
    let mut token = Station::new(&ids, 1, 4).1;
    let mut chance = Chance::new(3);
    let mut most = 0;
    for visit in 0..4000 {
        let here = visit % ids.len();
        for _ in 0..chance.below(if visit % 1000 < 500 { 17 } else { 3 }) {
            stations[here].post(0, b"");
        }
        let reply = stations[here].arrive(&token);
        token = reply.token().to_vec();
        for frame in &reply.frames[..reply.frames.len() - 1] {
            for place in (0..ids.len()).filter(|place| *place != here) {
                stations[place].arrive(frame);
            }
        }
        let parts = stations.iter().map(|station| u16::from(station.bytes[OWN_PART])).sum::<u16>();
        assert_eq!(u16::from_le_bytes([token[28], token[29]]), parts);
        most = most.max(parts);
    }
    assert!(most > 60, "the backlog was at most {most}");
}
