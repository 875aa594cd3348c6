//! A second implementation of the furnace ring station, written from the specification alone, to
//! compare the proved library with: what both answer to the same call must be the same, byte for byte.
//!
//! This file is the C interface: the four calls with the signatures of `totem.h`. Each makes slices of
//! the lent buffers and hands them to the safe function of the same name.

mod answer;
mod arrival;
mod bytes;
mod delivery;
mod flow;
mod founding;
mod frame;
mod held;
pub mod layout;
mod message;
mod output;
mod posting;
mod record;
mod resending;
mod ring;
mod visit;
mod whole;

pub use answer::{Answer, Outcome, Refusal};
pub use arrival::arrive;
pub use founding::found;
pub use posting::post;
pub use resending::resend;

/// The buffer's bytes; NULL stands for an empty one.
///
/// # Safety
/// A pointer other than NULL can be read for `len` bytes while the slice lives.
unsafe fn lent<'a>(start: *const u8, len: usize) -> &'a [u8] {
    if start.is_null() {
        &[]
    } else {
        std::slice::from_raw_parts(start, len)
    }
}

/// The buffer's bytes to write to; NULL stands for an empty one.
///
/// # Safety
/// A pointer other than NULL can be read and written for `len` bytes while the slice lives, and nothing
/// else reaches them.
unsafe fn lent_mut<'a>(start: *mut u8, len: usize) -> &'a mut [u8] {
    if start.is_null() {
        &mut []
    } else {
        std::slice::from_raw_parts_mut(start, len)
    }
}

/// [`found`] over C.
///
/// # Safety
/// Each pointer is NULL with length 0, or a buffer of that many bytes; no two buffers overlap.
#[no_mangle]
pub unsafe extern "C" fn oracle_found(
    station: *mut u8,
    station_len: usize,
    members: *const u8,
    members_len: usize,
    own: u16,
    ring: u32,
    token: *mut u8,
    token_len: usize,
) -> Answer {
    found(lent_mut(station, station_len), lent(members, members_len), own, ring, lent_mut(token, token_len))
}

/// [`post`] over C.
///
/// # Safety
/// As for [`oracle_found`].
#[no_mangle]
pub unsafe extern "C" fn oracle_post(
    station: *mut u8,
    station_len: usize,
    service: u16,
    content: *const u8,
    content_len: usize,
) -> Answer {
    post(lent_mut(station, station_len), service, lent(content, content_len))
}

/// [`arrive`] over C.
///
/// # Safety
/// As for [`oracle_found`].
#[no_mangle]
pub unsafe extern "C" fn oracle_arrive(
    station: *mut u8,
    station_len: usize,
    frame: *const u8,
    frame_len: usize,
    frames: *mut u8,
    frames_len: usize,
    deliveries: *mut u8,
    deliveries_len: usize,
) -> Answer {
    arrive(
        lent_mut(station, station_len),
        lent(frame, frame_len),
        lent_mut(frames, frames_len),
        lent_mut(deliveries, deliveries_len),
    )
}

/// [`resend`] over C.
///
/// # Safety
/// As for [`oracle_found`].
#[no_mangle]
pub unsafe extern "C" fn oracle_resend(
    station: *const u8,
    station_len: usize,
    frames: *mut u8,
    frames_len: usize,
) -> Answer {
    resend(lent(station, station_len), lent_mut(frames, frames_len))
}
