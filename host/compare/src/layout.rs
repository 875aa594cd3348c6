//! Where each field of the record stands, and the sizes of the C interface. Names of fields come from the
//! table of docs/RECORD.md, and `check` compares the offsets here with it.

use std::ops::Range;

pub const RECORD_LEN: usize = 3429;
pub const FRAMES_LEN: usize = 1472;
pub const DELIVERIES_LEN: usize = 2752;
pub const TOKEN_LEN: usize = 32;
pub const MOST_TOKEN: usize = 96;
pub const MOST_CONTENT: usize = 64;
pub const MOST_MEMBERS: usize = 8;
pub const MOST_POSTS: usize = 16;
pub const MOST_REQUESTS: usize = 16;
pub const HELD_PLACES: u32 = 32;
pub const MOST_ROUND: u16 = 128;
pub const MOST_BACKLOG: u16 = 128;
pub const MOST_NUMBER: u32 = 2_000_000_000;

pub const OWN: usize = 0;
pub const PANEL: usize = 2;
pub const RING: usize = 3;
pub const MEMBER_COUNT: usize = 7;
pub const MEMBERS: usize = 8;
pub const LEVEL: usize = 24;
pub const SAFE: usize = 28;
pub const DELIVERED: usize = 32;
pub const SENDERS: usize = 36;
pub const SERVICES: usize = 100;
pub const LENGTHS: usize = 164;
pub const CONTENTS: usize = 196;
pub const ARU: usize = 2244;
pub const EARLIER_ARU: usize = 2248;
pub const TOKEN_NUMBER: usize = 2252;
pub const BROADCAST: usize = 2256;
pub const STALL: usize = 2257;
pub const OWN_PART: usize = 2258;
pub const TOKEN_SIZE: usize = 2259;
pub const TOKEN: usize = 2260;
pub const POST_COUNT: usize = 2356;
pub const POST_SERVICES: usize = 2357;
pub const POST_LENGTHS: usize = 2389;
pub const POST_CONTENTS: usize = 2405;

const OFFSETS: [usize; 25] = [
    OWN,
    PANEL,
    RING,
    MEMBER_COUNT,
    MEMBERS,
    LEVEL,
    SAFE,
    DELIVERED,
    SENDERS,
    SERVICES,
    LENGTHS,
    CONTENTS,
    ARU,
    EARLIER_ARU,
    TOKEN_NUMBER,
    BROADCAST,
    STALL,
    OWN_PART,
    TOKEN_SIZE,
    TOKEN,
    POST_COUNT,
    POST_SERVICES,
    POST_LENGTHS,
    POST_CONTENTS,
    RECORD_LEN,
];

/// Fields that consist of places, and a place's size.
const PLACED: [(usize, usize); 8] = [
    (MEMBERS, 2),
    (SENDERS, 2),
    (SERVICES, 2),
    (LENGTHS, 1),
    (CONTENTS, MOST_CONTENT),
    (POST_SERVICES, 2),
    (POST_LENGTHS, 1),
    (POST_CONTENTS, MOST_CONTENT),
];

/// One of a field's places, or the whole field where it has none.
pub struct Spot {
    pub bytes: Range<usize>,
    pub name: String,
}

fn rows() -> Vec<(usize, &'static str)> {
    let table = include_str!("../../../docs/RECORD.md");
    let row = |line: &'static str| {
        let mut cells = line.split('|').map(str::trim).skip(1);
        let offset = cells.next()?.replace(',', "").parse().ok()?;
        Some((offset, cells.nth(1)?))
    };
    table.lines().filter_map(row).collect()
}

/// Every place of every field, in the record's order.
pub fn spots() -> Vec<Spot> {
    let mut spots = Vec::new();
    for ends in rows().windows(2) {
        let (field, end) = (ends[0].0..ends[1].0, ends[1].0);
        let placed = PLACED.iter().find(|placed| placed.0 == field.start);
        let size = placed.map_or(field.len(), |placed| placed.1);
        for (place, at) in field.step_by(size).enumerate() {
            let short = ends[0].1.split([':', ',']).next().unwrap_or_default();
            let name = match placed {
                Some(_) => format!("{short}, place {place}"),
                None => short.to_string(),
            };
            spots.push(Spot { bytes: at..(at + size).min(end), name });
        }
    }
    spots
}

/// The table of docs/RECORD.md has the same offsets.
pub fn check() -> Result<(), String> {
    let table: Vec<usize> = rows().iter().map(|row| row.0).collect();
    if table == OFFSETS {
        return Ok(());
    }
    Err(format!("docs/RECORD.md has the offsets {table:?}, host/compare/src/layout.rs has {OFFSETS:?}"))
}

pub fn get2(bytes: &[u8], at: usize) -> u16 {
    u16::from_le_bytes([bytes[at], bytes[at + 1]])
}

pub fn get4(bytes: &[u8], at: usize) -> u32 {
    u32::from_le_bytes([bytes[at], bytes[at + 1], bytes[at + 2], bytes[at + 3]])
}

pub fn put2(bytes: &mut [u8], at: usize, value: u16) {
    bytes[at..at + 2].copy_from_slice(&value.to_le_bytes());
}

pub fn put4(bytes: &mut [u8], at: usize, value: u32) {
    bytes[at..at + 4].copy_from_slice(&value.to_le_bytes());
}
