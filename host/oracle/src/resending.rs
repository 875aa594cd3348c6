//! Resending: the remembered token is written out again, and the record stays as it is.

use crate::answer::{Answer, Outcome, Refusal};
use crate::arrival::FRAMES_LEN;
use crate::layout::LEN;
use crate::output::Output;
use crate::record::Record;

/// Writes the remembered token out. Asks 1, 2, 19.
pub fn resend(station: &[u8], frames: &mut [u8]) -> Answer {
    try_resend(station, frames).into()
}

fn try_resend(station: &[u8], frames: &mut [u8]) -> Result<Answer, Refusal> {
    Refusal::NoRoom.unless(frames.len() >= FRAMES_LEN)?;
    let record = Record::<&[u8; LEN]>::open(station)?;
    let token = record.remembered().ok_or(Refusal::NoLeave)?;
    let mut cable = Output::new(frames);
    cable.copy(token);
    Ok(Answer { frames: cable.count(), ..Answer::of(Outcome::Resent) })
}
