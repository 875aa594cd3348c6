//! Arrival: a frame from the cable is asked the questions at the door, then goes the way of its kind.

use crate::answer::{Answer, Refusal};
use crate::frame::{self, Frame, Token, TokenNumber};
use crate::layout::MOST_NUMBER;
use crate::message;
use crate::output::Output;
use crate::record::Lent;
use crate::visit;

/// The least buffers for frames and for deliveries.
pub const FRAMES_LEN: usize = 1472;
const DELIVERIES_LEN: usize = 2752;

/// Takes in a message or a token. Asks 1, 2, 10 to 14; of a token also 15 to 18.
pub fn arrive(station: &mut [u8], frame: &[u8], frames: &mut [u8], deliveries: &mut [u8]) -> Answer {
    try_arrive(station, frame, frames, deliveries).into()
}

fn try_arrive(
    station: &mut [u8],
    frame: &[u8],
    frames: &mut [u8],
    deliveries: &mut [u8],
) -> Result<Answer, Refusal> {
    Refusal::NoRoom.unless(frames.len() >= FRAMES_LEN && deliveries.len() >= DELIVERIES_LEN)?;
    let mut record = Lent::open(station)?;
    let frame = frame::read(frame)?;
    record.ring().ask(&frame)?;
    let mut delivered = Output::new(deliveries);
    let answer = match frame {
        Frame::Message(message) => message::receive(&mut record, &message, &mut delivered),
        Frame::Token(token) => {
            ask_token(&record, &token)?;
            visit::accept(&mut record, token, Output::new(frames), delivered)
        }
    };
    record.show_undelivered();
    Ok(answer)
}

/// Questions 15 to 18.
fn ask_token(record: &Lent, token: &Token) -> Result<(), Refusal> {
    Refusal::OtherAddressee.unless(token.addressee == record.ring().own)?;
    Refusal::OldToken.unless(token.number > record.token_number())?;
    Refusal::LastToken.unless(token.number < TokenNumber(MOST_NUMBER))?;
    Refusal::BelowHeld.unless(token.highest >= record.level() && token.highest >= record.held().highest())
}
