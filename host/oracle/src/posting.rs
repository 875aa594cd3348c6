//! Posting: one post more waits for the token.

use crate::answer::{Answer, Outcome, Refusal};
use crate::frame::is_service;
use crate::layout::{MOST_CONTENT, MOST_POSTS};
use crate::record::Lent;

/// Puts a post behind the others. Asks 2, 7 to 9.
pub fn post(station: &mut [u8], service: u16, content: &[u8]) -> Answer {
    try_post(station, service, content).into()
}

fn try_post(station: &mut [u8], service: u16, content: &[u8]) -> Result<Answer, Refusal> {
    let mut record = Lent::open(station)?;
    Refusal::LongContent.unless(content.len() <= MOST_CONTENT)?;
    Refusal::OtherService.unless(is_service(service))?;
    Refusal::PostsFull.unless(record.posts() < MOST_POSTS)?;
    record.push_post(service, content);
    Ok(Answer::of(Outcome::Posted))
}
