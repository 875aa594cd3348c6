//! The two stations behind the same C interface: the proved library and the oracle.

use crate::call::Ask;
// Linked for its C functions alone.
use oracle as _;

/// What each call answers: `totem_answer`.
#[repr(C)]
#[derive(Clone, Copy, PartialEq, Eq, Debug, Default)]
pub struct Answer {
    pub refusal: u16,
    pub outcome: u16,
    pub frames: u16,
    pub deliveries: u16,
    pub deaf: u16,
}

pub const FOUNDED: u16 = 1;
pub const POSTED: u16 = 2;
pub const KEPT: u16 = 3;
pub const HAD: u16 = 4;
pub const AHEAD: u16 = 5;
pub const ACCEPTED: u16 = 6;
pub const RESENT: u16 = 7;
pub const OUTCOMES: [&str; 8] = ["none", "founded", "posted", "kept", "had", "ahead", "accepted", "resent"];

/// A lent buffer: a pointer and a length.
pub type Lent = (*mut u8, usize);

pub struct Buffers {
    pub record: Lent,
    pub input: Lent,
    pub frames: Lent,
    pub deliveries: Lent,
}

/// One of the two stations. The buffers handed to it must be as include/totem.h asks: that many bytes at each
/// pointer, apart from each other.
pub struct Side {
    pub name: &'static str,
    pub make: unsafe fn(Ask, &Buffers) -> Answer,
}

pub const SIDES: [Side; 2] = [Side { name: "library", make: library }, Side { name: "oracle", make: oracle }];

macro_rules! station {
    ($make:ident, $found:ident, $post:ident, $arrive:ident, $resend:ident) => {
        extern "C" {
            fn $found(
                station: *mut u8,
                station_len: usize,
                members: *const u8,
                members_len: usize,
                own: u16,
                ring: u32,
                token: *mut u8,
                token_len: usize,
            ) -> Answer;
            fn $post(
                station: *mut u8,
                station_len: usize,
                service: u16,
                content: *const u8,
                content_len: usize,
            ) -> Answer;
            fn $arrive(
                station: *mut u8,
                station_len: usize,
                frame: *const u8,
                frame_len: usize,
                frames: *mut u8,
                frames_len: usize,
                deliveries: *mut u8,
                deliveries_len: usize,
            ) -> Answer;
            fn $resend(station: *const u8, station_len: usize, frames: *mut u8, frames_len: usize) -> Answer;
        }

        unsafe fn $make(ask: Ask, lent: &Buffers) -> Answer {
            let (station, station_len) = lent.record;
            let (input, input_len) = lent.input;
            let (frames, frames_len) = lent.frames;
            let (out, out_len) = lent.deliveries;
            match ask {
                Ask::Found { own, ring } => {
                    $found(station, station_len, input, input_len, own, ring, frames, frames_len)
                }
                Ask::Post { service } => $post(station, station_len, service, input, input_len),
                Ask::Arrive => {
                    $arrive(station, station_len, input, input_len, frames, frames_len, out, out_len)
                }
                Ask::Resend => $resend(station, station_len, frames, frames_len),
            }
        }
    };
}

station!(library, totem_found, totem_post, totem_arrive, totem_resend);
station!(oracle, oracle_found, oracle_post, oracle_arrive, oracle_resend);
