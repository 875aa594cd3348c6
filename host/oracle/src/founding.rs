//! Founding: a fresh record, and the ring's first token.

use crate::answer::{Answer, Outcome, Refusal};
use crate::bytes::{put_u16, put_u32};
use crate::frame::{Requests, Token, TokenNumber, TOKEN_LEN};
use crate::layout::*;
use crate::output::Output;
use crate::ring::Ring;

/// Founds a station's record and writes the ring's first token. Asks 1, 3 to 6.
pub fn found(station: &mut [u8], members: &[u8], own: u16, ring: u32, token: &mut [u8]) -> Answer {
    try_found(station, members, own, ring, token).into()
}

fn try_found(
    station: &mut [u8],
    members: &[u8],
    own: u16,
    ring: u32,
    token: &mut [u8],
) -> Result<Answer, Refusal> {
    let record = station.first_chunk_mut::<LEN>().ok_or(Refusal::NoRoom)?;
    Refusal::NoRoom.unless(token.len() >= TOKEN_LEN)?;
    let ring = Ring::new(members, own, ring)?;
    write_fresh(record, &ring);
    let mut cable = Output::new(token);
    cable.token(&first_token(&ring));
    Ok(Answer { frames: cable.count(), ..Answer::of(Outcome::Founded) })
}

/// All marks and counts 0, the panel's too, nothing held or waiting, no leave to resend.
fn write_fresh(record: &mut [u8; LEN], ring: &Ring) {
    record.fill(0);
    put_u16(record, OWN, ring.own);
    put_u32(record, RING, ring.number.0);
    record[MEMBER_COUNT] = ring.ids().len() as u8;
    for (place, id) in ring.ids().iter().enumerate() {
        put_u16(record, MEMBERS + 2 * place, *id);
    }
}

/// Addressed to the representative.
fn first_token(ring: &Ring) -> Token {
    Token {
        ring: ring.number,
        representative: ring.representative(),
        addressee: ring.representative(),
        number: TokenNumber(1),
        highest: 0,
        aru: 0,
        blocker: None,
        round_count: 0,
        backlog: 0,
        requests: Requests::default(),
    }
}
