//! The specification's 'Deliver'.

use crate::frame::AGREED;
use crate::output::Output;
use crate::record::Lent;

/// Hands out each next frame up to the level that is agreed, or at most this safe mark, and raises the
/// delivered mark. Everything above the delivered mark up to the level is held.
pub fn deliver(record: &mut Lent, safe: u32, delivered: &mut Output) {
    let level = record.level();
    let mut mark = record.delivered();
    while mark < level {
        let message = record.message(mark + 1);
        if message.service != AGREED && message.number > safe {
            break;
        }
        delivered.message(&message);
        mark = message.number;
    }
    record.set_delivered(mark);
}
