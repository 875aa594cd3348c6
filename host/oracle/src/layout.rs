//! The record's layout: the place of each field, as docs/RECORD.md has them, and the specification's
//! bounds on what stands there.

/// Bytes of a station's record.
pub const LEN: usize = 3429;

pub const OWN: usize = 0;
/// How many messages are held and undelivered. A panel reads it here, so it never moves.
pub const PANEL: usize = 2;
pub const RING: usize = 3;
pub const MEMBER_COUNT: usize = 7;
pub const MEMBERS: usize = 8;
pub const LEVEL: usize = 24;
pub const SAFE: usize = 28;
pub const DELIVERED: usize = 32;
pub const HELD_SENDERS: usize = 36;
pub const HELD_SERVICES: usize = 100;
pub const HELD_LENGTHS: usize = 164;
pub const HELD_CONTENTS: usize = 196;
pub const ARU: usize = 2244;
pub const ARU_BEFORE: usize = 2248;
pub const TOKEN_NUMBER: usize = 2252;
pub const LAST_COUNT: usize = 2256;
pub const STALL: usize = 2257;
pub const OWN_PART: usize = 2258;
pub const TOKEN_SIZE: usize = 2259;
pub const TOKEN: usize = 2260;
pub const POST_COUNT: usize = 2356;
pub const POST_SERVICES: usize = 2357;
pub const POST_LENGTHS: usize = 2389;
pub const POST_CONTENTS: usize = 2405;

/// Places for held messages: the numbers from the safe mark + 1 to the safe mark + 32.
pub const WINDOW: usize = 32;
/// Places for waiting posts.
pub const MOST_POSTS: usize = 16;
/// The most that a station broadcasts at a visit.
pub const MOST_BROADCAST: u8 = 16;
/// Members of a ring.
pub const MOST_MEMBERS: usize = 8;
/// Bytes of a content.
pub const MOST_CONTENT: usize = 64;
/// The largest ring, message or token number.
pub const MOST_NUMBER: u32 = 2_000_000_000;
