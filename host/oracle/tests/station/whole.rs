//! Question 2: records that are whole and records that aren't.

use crate::support::*;
use oracle::layout::*;

/// A station that has a bit of everything: marks 2, 3 and 5, a message above the level, a token that may
/// be resent, waiting posts.
fn busy() -> Station {
    let mut station = Station::fresh();
    station.set_u32(SAFE, 2);
    station.set_u32(DELIVERED, 3);
    station.set_u32(LEVEL, 5);
    for (number, content) in [(3, "a"), (4, ""), (5, "abc"), (8, "gap")] {
        station.hold(number, 9, 1, content.as_bytes());
    }
    station.set_u32(ARU, 5);
    station.set_u32(ARU_BEFORE, 2);
    station.set_u32(TOKEN_NUMBER, 30);
    station.post(1, b"waits");
    station.post(0, b"");
    remember(&mut station, &resendable().frame());
    station
}

fn resendable() -> Token {
    Token { addressee: 9, number: 30, aru: 5, blocker: 7, requests: vec![6, 7], ..Token::with_highest(8) }
}

fn remember(station: &mut Station, frame: &[u8]) {
    station.bytes[TOKEN_SIZE..][..97].fill(0);
    station.bytes[TOKEN_SIZE] = frame.len() as u8;
    station.bytes[TOKEN..][..frame.len()].copy_from_slice(frame);
}

/// Is the busy record still whole with this change?
fn whole(change: impl Fn(&mut Station)) -> bool {
    let mut station = busy();
    assert!(station.is_whole());
    change(&mut station);
    station.is_whole()
}

#[test]
fn fresh_and_otherwise_fresh() {
    assert!(Station::fresh().is_whole());
    for level in 0..=32 {
        assert!(Station::with_level(level).is_whole());
    }
    assert!(!Station::with_level(33).is_whole());
}

#[test]
fn another_length() {
    assert!(!whole(|station| station.bytes.push(0)));
    assert!(!whole(|station| station.bytes.truncate(LEN - 1)));
    assert!(!whole(|station| station.bytes.clear()));
}

/// Each byte past the marks of a fresh record, with values about the bounds.
#[test]
fn a_fresh_record_with_one_byte_altered() {
    let mut station = Station::fresh();
    for at in HELD_SERVICES..LEN {
        for value in [1, 2, 16, 17, 64, 65, 119, 120, 255] {
            station.bytes[at] = value;
            let number = station.u32(TOKEN_NUMBER);
            let expected = match at {
                TOKEN_NUMBER..LAST_COUNT => number <= 2_000_000_000,
                LAST_COUNT | OWN_PART | POST_COUNT => value <= 16,
                STALL => true,
                _ => false,
            };
            assert_eq!(station.is_whole(), expected, "byte {at} is {value}");
        }
        station.bytes[at] = 0;
    }
}

#[test]
fn the_ring() {
    assert!(whole(|station| station.set_u16(OWN, 3)));
    assert!(!whole(|station| station.set_u16(OWN, 8)));
    assert!(!whole(|station| station.set_u16(OWN, 0)));
    assert!(!whole(|station| station.set_u32(RING, 5)), "the token is of ring 4");
    let fresh = |change: &dyn Fn(&mut Station)| {
        let mut station = Station::fresh();
        change(&mut station);
        station.is_whole()
    };
    assert!(fresh(&|station| station.set_u32(RING, 2_000_000_000)));
    assert!(!fresh(&|station| station.set_u32(RING, 2_000_000_001)));
    assert!(!fresh(&|station| station.set_u32(RING, 0)));
    for count in (0..=255).filter(|count| *count != 3) {
        assert!(!fresh(&|station| station.bytes[MEMBER_COUNT] = count));
    }
    assert!(!fresh(&|station| station.set_u16(MEMBERS, 8)), "the lowest is first");
    assert!(!fresh(&|station| station.set_u16(MEMBERS + 4, 7)), "ids are distinct");
    assert!(!fresh(&|station| station.set_u16(MEMBERS + 6, 10)), "a place past the members");
}

#[test]
fn the_marks() {
    assert!(whole(|station| station.set_u32(DELIVERED, 2)));
    assert!(whole(|station| station.set_u32(DELIVERED, 5)));
    assert!(!whole(|station| station.set_u32(DELIVERED, 1)));
    assert!(!whole(|station| station.set_u32(DELIVERED, 6)));
    assert!(!whole(|station| station.set_u32(LEVEL, 4)), "level + 1 isn't held");
    assert!(!whole(|station| station.set_u32(LEVEL, 6)), "up to the level is held");
    assert!(!whole(|station| station.set_u32(SAFE, 1)), "2 isn't held");
    assert!(whole(|station| station.set_u32(SAFE, 3)), "the place of 3 stands for 35 then");
    assert!(!whole(|station| station.set_u32(SAFE, 4)), "the delivered mark is below");
    for field in [ARU, ARU_BEFORE] {
        assert!(whole(|station| station.set_u32(field, 0)));
        assert!(!whole(|station| station.set_u32(field, 6)));
        assert!(!whole(|station| station.set_u32(field, u32::MAX)));
    }
    for field in [LEVEL, SAFE, DELIVERED] {
        assert!(!whole(|station| station.set_u32(field, u32::MAX)));
    }
    assert!(whole(|station| station.set_u32(TOKEN_NUMBER, 2_000_000_000)));
    assert!(!whole(|station| station.set_u32(TOKEN_NUMBER, 2_000_000_001)));
}

#[test]
fn a_full_window() {
    let mut station = Station::with_level(32);
    assert!(station.is_whole());
    station.set_u32(LEVEL, 31);
    assert!(!station.is_whole());
}

#[test]
fn numbers_end_at_2_000_000_000() {
    let last = 2_000_000_000;
    assert!(Station::with_marks(last).is_whole());
    assert!(!Station::with_marks(last + 1).is_whole());
    assert!(!Station::with_marks(u32::MAX).is_whole());
    for (mark, number, whole) in [
        (last - 32, last, true),
        (last - 2, last, true),
        (last - 2, last + 1, false),
        (last - 2, last + 30, false),
        (last, last + 2, false),
    ] {
        let mut station = Station::with_marks(mark);
        station.hold(number, 3, 0, b"");
        assert_eq!(station.is_whole(), whole, "mark {mark}, number {number}");
    }
}

#[test]
fn held_messages() {
    let free = 9;
    assert!(whole(|station| station.hold(free, 3, 0, b"")));
    assert!(!whole(|station| station.hold(free, 8, 0, b"")), "the sender is a member");
    assert!(!whole(|station| station.hold(free, 3, 2, b"")));
    assert!(!whole(|station| station.hold(free, 0, 1, b"")));
    assert!(!whole(|station| station.bytes[HELD_LENGTHS + free as usize] = 1));
    assert!(!whole(|station| station.bytes[HELD_CONTENTS + 64 * free as usize + 63] = 1));
    assert!(whole(|station| station.hold(free, 3, 1, &[1; 64])));
    for length in [65, 128, 255] {
        assert!(!whole(|station| station.bytes[HELD_LENGTHS + 5] = length));
    }
    for past in 3..64 {
        assert!(!whole(|station| station.bytes[HELD_CONTENTS + 64 * 5 + past] = 1));
    }
    for used in 0..3 {
        assert!(whole(|station| station.bytes[HELD_CONTENTS + 64 * 5 + used] = 0));
    }
}

#[test]
fn waiting_posts() {
    assert!(!whole(|station| station.bytes[POST_COUNT] = 17));
    assert!(!whole(|station| station.bytes[POST_COUNT] = 0), "post 0 isn't zero");
    assert!(whole(|station| station.bytes[POST_COUNT] = 1), "post 1 is zero");
    assert!(!whole(|station| station.set_u16(POST_SERVICES, 2)));
    assert!(!whole(|station| station.bytes[POST_LENGTHS] = 65));
    assert!(!whole(|station| station.bytes[POST_LENGTHS] = 4), "byte 4 isn't zero");
    assert!(!whole(|station| station.bytes[POST_CONTENTS + 64] = 1));
    let mut full = Station::fresh();
    for _ in 0..16 {
        full.post(1, &[1; 64]);
    }
    assert!(full.is_whole());
}

#[test]
fn the_token_that_may_be_resent() {
    let with = |token: Token| whole(|station| remember(station, &token.frame()));
    assert!(with(Token { addressee: 3, number: 1, ..Token::with_highest(0) }));
    assert!(with(Token { requests: (1..=16).collect(), ..Token::with_highest(20) }));
    assert!(with(Token { addressee: 7, ..resendable() }), "15 to 18 aren't asked");
    assert!(!with(Token { addressee: 8, ..resendable() }));
    assert!(!with(Token { blocker: 8, ..resendable() }));
    assert!(!with(Token { round_count: 129, ..resendable() }));
    assert!(with(Token { backlog: 128, ..resendable() }));
    assert!(!with(Token { backlog: 129, ..resendable() }));
    assert!(!with(Token { requests: vec![2, 2], ..resendable() }));
    assert!(!whole(|station| remember(station, &message(1, 3, 0, &[1; 20]))), "kind 2");
    assert!(!whole(|station| station.bytes[TOKEN + 2] = 1));
    assert!(!whole(|station| station.bytes[TOKEN + 4] = 5));
    assert!(!whole(|station| station.bytes[TOKEN + 8] = 7));
    for size in (0..=255).filter(|size| *size != 40) {
        assert!(!whole(|station| station.bytes[TOKEN_SIZE] = size), "size {size}");
    }
    assert!(!whole(|station| station.bytes[TOKEN + 40] = 1));
    assert!(!whole(|station| station.bytes[TOKEN + 95] = 1));
}
