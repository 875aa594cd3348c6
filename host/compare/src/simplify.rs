//! Simpler forms of a case: each has less in one place, so that taking one after another comes to an end.

use crate::call::{Ask, Call};
use crate::frames::{is_token, put_length, BACKLOG, CONTENT, REQUESTS, REQUEST_COUNT, SERVICE};
use crate::layout::{
    get2, get4, put2, spots, DELIVERED, HELD_PLACES, MOST_REQUESTS, PANEL, POST_COUNT, SAFE,
};
use crate::tester::Case;
use crate::whole;

pub fn simpler(case: &Case) -> impl Iterator<Item = Case> + '_ {
    let with_record = |record| Case { record, calls: case.calls.clone() };
    let with_call = |place: usize, call| {
        let mut case = case.clone();
        case.calls[place] = call;
        case
    };
    let records = simpler_records(&case.record).into_iter().map(with_record);
    let calls = case.calls.iter().enumerate().flat_map(move |(place, call)| {
        simpler_calls(call).into_iter().map(move |call| with_call(place, call))
    });
    records.chain(calls)
}

/// The record all zero, without its posts, its token or one of its messages, or with a place that is zero.
fn simpler_records(record: &[u8]) -> Vec<Vec<u8>> {
    let mut records = vec![vec![0; record.len()]];
    let mut with = |change: &dyn Fn(&mut [u8])| {
        let mut other = record.to_vec();
        change(&mut other);
        records.push(other);
    };
    with(&|record| record[POST_COUNT..].fill(0));
    with(&|record| whole::put_remembered(record, &[]));
    for place in 1..=HELD_PLACES {
        with(&|record| without_message(record, get4(record, SAFE).wrapping_add(place)));
    }
    for spot in spots() {
        with(&|record| record[spot.bytes.clone()].fill(0));
    }
    records.retain(|other| other != record);
    records
}

/// Lets go of a message; the panel's byte loses it, if it counted.
fn without_message(record: &mut [u8], number: u32) {
    let counted = whole::is_held(record, number) && number > get4(record, DELIVERED);
    whole::let_go(record, number);
    record[PANEL] = record[PANEL].saturating_sub(counted.into());
}

fn simpler_calls(call: &Call) -> Vec<Call> {
    let mut calls = Vec::new();
    for noise in [0, 1] {
        if noise < call.noise {
            calls.push(Call { noise, ..call.clone() });
        }
    }
    let usual = Call::new(call.ask, call.input.clone(), call.noise);
    if usual != *call {
        calls.push(usual);
    }
    if let Ask::Post { service: 1.. } = call.ask {
        calls.push(Call { ask: Ask::Post { service: 0 }, ..call.clone() });
    }
    for input in simpler_inputs(call) {
        calls.push(Call { input, ..call.clone() });
    }
    calls
}

fn simpler_inputs(call: &Call) -> Vec<Vec<u8>> {
    match call.ask {
        Ask::Found { .. } => without(&call.input, 0, 2),
        Ask::Post { .. } => simpler_contents(&call.input, 0),
        Ask::Arrive if is_token(&call.input) => simpler_tokens(&call.input),
        Ask::Arrive => simpler_messages(&call.input),
        Ask::Resend => Vec::new(),
    }
}

/// Without one of the requests, or with backlog 0.
fn simpler_tokens(frame: &[u8]) -> Vec<Vec<u8>> {
    let mut frames = without(frame, REQUESTS, 4);
    for frame in &mut frames {
        let requests = (frame.len() - REQUESTS) / 4;
        put2(frame, REQUEST_COUNT, requests as u16);
        put_length(frame);
    }
    if get2(frame, BACKLOG) != 0 {
        let mut none = frame.to_vec();
        put2(&mut none, BACKLOG, 0);
        frames.push(none);
    }
    frames
}

/// With a shorter content, or agreed in place of safe.
fn simpler_messages(frame: &[u8]) -> Vec<Vec<u8>> {
    let mut frames = simpler_contents(frame, CONTENT);
    frames.iter_mut().for_each(|frame| put_length(frame));
    if frame.len() >= CONTENT && get2(frame, SERVICE) == 1 {
        let mut agreed = frame.to_vec();
        put2(&mut agreed, SERVICE, 0);
        frames.push(agreed);
    }
    frames
}

/// Without one of the first items of this size that begin at this byte.
fn without(bytes: &[u8], from: usize, size: usize) -> Vec<Vec<u8>> {
    let places = (from..bytes.len().saturating_sub(size - 1)).step_by(size).take(MOST_REQUESTS);
    let without = |at: usize| [&bytes[..at], &bytes[at + size..]].concat();
    places.map(without).collect()
}

/// With the bytes from here on shorter, or all zero.
fn simpler_contents(bytes: &[u8], from: usize) -> Vec<Vec<u8>> {
    if bytes.len() <= from {
        return Vec::new();
    }
    let half = from + (bytes.len() - from) / 2;
    let mut simpler: Vec<Vec<u8>> = [from, half, bytes.len() - 1].map(|end| bytes[..end].to_vec()).into();
    if bytes[from..].iter().any(|byte| *byte != 0) {
        let mut zero = bytes.to_vec();
        zero[from..].fill(0);
        simpler.push(zero);
    }
    simpler
}
