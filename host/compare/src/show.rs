//! Prints a case that shows a difference.

use crate::arena::{Arena, Part};
use crate::call::{Ask, Call};
use crate::compare::{Difference, Kind};
use crate::layout::spots;
use crate::sides::{Answer, OUTCOMES, SIDES};
use crate::tester::{replay, Case};

pub fn case(case: &Case) {
    let mut arena = Arena::new();
    let (answers, difference) = replay(&mut arena, case);
    println!("the shortest history that shows it, calls: {}", case.calls.len());
    beginning(case);
    for (place, call) in case.calls.iter().enumerate() {
        println!("{}. {}", place + 1, call_line(call));
        if let Some(answer) = answers.get(place) {
            println!("   both: {}", answer_line(*answer));
        }
    }
    match difference {
        Some(difference) => show_difference(&arena, &difference),
        None => println!("(it shows no difference when it is made again)"),
    }
}

/// The record before the first call, unless that one founds it.
pub fn beginning(case: &Case) {
    if matches!(case.calls.first().map(|call| call.ask), None | Some(Ask::Found { .. })) {
        return;
    }
    println!("the record at the beginning, 0 where nothing is shown:");
    for spot in spots() {
        let bytes = &case.record[spot.bytes.clone()];
        if bytes.iter().any(|byte| *byte != 0) {
            println!("  {:4} {}: {}", spot.bytes.start, spot.name, hex(bytes));
        }
    }
}

fn hex(bytes: &[u8]) -> String {
    let digits: Vec<String> = bytes.iter().map(|byte| format!("{byte:02X}")).collect();
    digits.join(" ")
}

pub fn call_line(call: &Call) -> String {
    let name = Ask::NAMES[call.ask.place()];
    let (values, input, frames) = match call.ask {
        Ask::Found { own, ring } => (format!(" own {own}, ring {ring},"), "members", "token"),
        Ask::Post { service } => (format!(" service {service},"), "content", ""),
        Ask::Arrive => (String::new(), "frame", "frames"),
        Ask::Resend => (String::new(), "", "frames"),
    };
    let mut line = format!("{name}{values}");
    if !input.is_empty() {
        line += &format!(" {input} of {} bytes [{}];", call.input.len(), hex(&call.input));
    }
    line += &format!(" lent: record {}", call.record_len);
    if !frames.is_empty() {
        line += &format!(", {frames} {}", call.frames_len);
    }
    if call.ask == Ask::Arrive {
        line += &format!(", deliveries {}", call.deliveries_len);
    }
    line + &format!("; noise {}", call.noise)
}

fn answer_line(answer: Answer) -> String {
    let outcome = OUTCOMES.get(usize::from(answer.outcome)).unwrap_or(&"unknown");
    format!(
        "refusal {}, outcome {} ({outcome}), frames {}, deliveries {}, deaf {}",
        answer.refusal, answer.outcome, answer.frames, answer.deliveries, answer.deaf
    )
}

fn show_difference(arena: &Arena, difference: &Difference) {
    for (side, answer) in SIDES.iter().zip(difference.answers) {
        println!("   {}: {}", side.name, answer_line(answer));
    }
    println!("what is wrong: {}", kind_line(difference.kind));
    if let Some(at) = difference.at {
        println!("the first wrong byte: {}", byte_line(arena, at));
    }
    outputs(arena, difference, Part::Frames, |answer| answer.frames);
    outputs(arena, difference, Part::Deliveries, |answer| answer.deliveries);
}

fn kind_line(kind: Kind) -> String {
    match kind {
        Kind::Answer(side) => format!("the {}'s answer is none that this call can give", SIDES[side].name),
        Kind::Altered(side, part) => format!(
            "the {} altered a byte that this call must not alter, in: {}",
            SIDES[side].name,
            part_name(part)
        ),
        Kind::Panel(side) => {
            format!("the panel's byte that the {} left is not the count", SIDES[side].name)
        }
        Kind::Answers => "the answers differ".to_string(),
        Kind::Bytes(part) => format!("the bytes left behind differ, first in: {}", part_name(part)),
    }
}

fn part_name(part: Part) -> &'static str {
    match part {
        Part::Record => "the record",
        Part::Input => "the input",
        Part::Frames => "the frames",
        Part::Deliveries => "the deliveries",
        Part::Guard => "the guard bytes",
    }
}

fn byte_line(arena: &Arena, at: usize) -> String {
    let (part, offset) = arena.locate(at);
    let place = match part {
        Part::Record => spots().into_iter().find(|spot| spot.bytes.contains(&offset)).map(|spot| spot.name),
        Part::Guard => arena.guarded(at).map(|part| format!("counted from the end of {}", part_name(part))),
        _ => None,
    };
    let place = place.map_or(String::new(), |place| format!(" ({place})"));
    let block = Part::Guard;
    format!(
        "{}, offset {offset}{place}: before {:02X}, library {:02X}, oracle {:02X}",
        part_name(part),
        arena.before(block)[at],
        arena.after(0, block)[at],
        arena.after(1, block)[at]
    )
}

/// What each side wrote there, where it is not the same.
fn outputs(arena: &Arena, difference: &Difference, part: Part, count: fn(&Answer) -> u16) {
    let written = [0, 1].map(|side| {
        let bytes = arena.after(side, part);
        &bytes[..bytes.len().min(count(&difference.answers[side]).into())]
    });
    if written[0] != written[1] {
        for (side, bytes) in SIDES.iter().zip(written) {
            println!("{} of the {}: [{}]", part_name(part), side.name, hex(bytes));
        }
    }
}
