//! The specification's 'A message arrives'.

use crate::answer::{Answer, Outcome};
use crate::delivery::deliver;
use crate::frame::Message;
use crate::output::Output;
use crate::record::Lent;

/// Takes in a message that has passed the door.
pub fn receive(record: &mut Lent, message: &Message, delivered: &mut Output) -> Answer {
    let outcome = keep(record, message);
    record.forget_token();
    deliver(record, record.safe(), delivered);
    Answer { deliveries: delivered.count(), ..Answer::of(outcome) }
}

/// Holds the message where it is new and has a place.
fn keep(record: &mut Lent, message: &Message) -> Outcome {
    if message.number <= record.safe() || record.held().has(message.number) {
        Outcome::Had
    } else if record.held().is_ahead(message.number) {
        Outcome::Ahead
    } else {
        record.hold(message.number, message.sender, message.service, message.content);
        Outcome::Kept
    }
}
