//! What the calls brought about, counted. A run in which something of this list never came up fails: its
//! sources no longer try what they are there for.

use crate::arena::{Arena, Part};
use crate::call::{Ask, Call};
use crate::flow::Flow;
use crate::frames;
use crate::layout::*;
use crate::seen::Seen;
use crate::sides::{Answer, ACCEPTED, FOUNDED, KEPT, OUTCOMES};

#[derive(Clone, Copy)]
pub enum Event {
    Lost,
    Repeated,
    Delayed,
    Overtaken,
    Deaf,
    DeafInHistory,
    RequestsTaken,
    RequestsWritten,
    RoundFull,
    StallFull,
    EightNew,
    SixteenRepeats,
    FramesFull,
    DeliveriesFull,
    LevelJumps,
    SafeDelivered,
    HighNumbers,
    LastKept,
    LastNumbered,
    LastToken,
    EmptyContent,
    FullContent,
    Null,
    LongInput,
    LongRecord,
    ShareLimits,
    ShareNone,
    OwnPartAbove,
    BacklogCut,
    BacklogRefused,
    OwnPartRefused,
    PanelGap,
    PanelSafe,
    PanelFalls,
    PanelLess,
    PanelMore,
}

const EVENTS: [&str; 36] = [
    "frames lost",
    "frames repeated",
    "frames delayed",
    "frames overtaken",
    "'deaf'",
    "'deaf' since founding",
    "tokens with 16 requests taken",
    "tokens with 16 requests written",
    "round count 128 written",
    "stall count at 255",
    "8 new messages at once",
    "16 repeats at once",
    "1,472 bytes of frames",
    "2,752 bytes of deliveries",
    "level up by 2 or more",
    "safe messages delivered",
    "tokens accepted with a highest within 32 of 2,000,000,000",
    "message 2,000,000,000 kept",
    "message 2,000,000,000 given its number",
    "token 1,999,999,999 accepted",
    "empty contents kept",
    "contents of 64 bytes kept",
    "buffers lent as NULL",
    "inputs over 65,535 bytes",
    "records over 65,535 bytes",
    "fewer new messages by the share than without it",
    "a share of 0, and 1 new message",
    "an own part above the token's backlog",
    "backlog cut at 128",
    "backlog 129 refused with 12",
    "own part 17 refused with 2",
    "all on the panel behind a gap",
    "all on the panel up to the level",
    "fewer on the panel by a message that isn't kept",
    "panel one less refused with 2",
    "panel one more refused with 2",
];

pub struct Coverage {
    /// For each kind of call; at 0 those that are not refused.
    refusals: [[u64; 20]; 4],
    outcomes: [u64; 8],
    rings: [u64; MOST_MEMBERS + 1],
    events: [u64; EVENTS.len()],
    damaged: Seen,
    backlogs: Seen,
    own_parts: Seen,
    panel_kept: Seen,
    panel_accepted: Seen,
    panel_refused: Seen,
}

impl Coverage {
    pub fn new() -> Coverage {
        let counts = HELD_PLACES as usize + 1;
        Coverage {
            refusals: [[0; 20]; 4],
            outcomes: [0; 8],
            rings: [0; MOST_MEMBERS + 1],
            events: [0; EVENTS.len()],
            damaged: Seen::none("bytes of the record damaged one by one", RECORD_LEN),
            backlogs: Seen::none("backlogs of accepted tokens", usize::from(MOST_BACKLOG) + 1),
            own_parts: Seen::none("own parts where a token was accepted", MOST_POSTS + 1),
            panel_kept: Seen::none("counts on the panel after a message kept", counts),
            panel_accepted: Seen::none("counts on the panel after a token accepted", counts),
            panel_refused: Seen::none("bytes on the panel refused with 2", 256),
        }
    }

    pub fn event(&mut self, event: Event) {
        self.events[event as usize] += 1;
    }

    pub fn event_if(&mut self, event: Event, happened: bool) {
        self.events[event as usize] += u64::from(happened);
    }

    pub fn byte_damaged(&mut self, at: usize) {
        self.damaged.note(at);
    }

    /// All of the record but the panel's byte is whole.
    pub fn panel_refused(&mut self, count: u8, panel: u8) {
        self.panel_refused.note(panel.into());
        self.event_if(Event::PanelLess, panel.checked_add(1) == Some(count));
        self.event_if(Event::PanelMore, panel == count + 1);
    }

    pub fn note(&mut self, call: &Call, answer: Answer, arena: &Arena) {
        self.refusals[call.ask.place()][usize::from(answer.refusal)] += 1;
        self.outcomes[usize::from(answer.outcome)] += 1;
        self.event_if(Event::Null, call.lends_null() && lends_empty(call));
        self.event_if(Event::LongInput, call.input.len() > 65_535);
        self.event_if(Event::LongRecord, call.record_len > 65_535);
        match answer.outcome {
            FOUNDED => self.rings[call.input.len() / 2] += 1,
            KEPT => self.kept(call),
            ACCEPTED => self.accepted(call, answer, arena),
            _ => (),
        }
        if answer.deliveries > 0 {
            self.delivered(answer, arena);
        }
        if (KEPT..=ACCEPTED).contains(&answer.outcome) {
            self.panel(answer, arena);
        }
    }

    /// What an arrival leaves on the panel.
    fn panel(&mut self, answer: Answer, arena: &Arena) {
        let (before, record) = (arena.before(Part::Record), arena.after(0, Part::Record));
        let count = record[PANEL];
        let up_to_level = get4(record, LEVEL) - get4(record, DELIVERED);
        match answer.outcome {
            KEPT => self.panel_kept.note(count.into()),
            ACCEPTED => self.panel_accepted.note(count.into()),
            _ => self.event_if(Event::PanelFalls, count < before[PANEL]),
        }
        self.event_if(Event::PanelGap, count > 0 && up_to_level == 0);
        self.event_if(Event::PanelSafe, count > 0 && up_to_level == count.into());
    }

    fn kept(&mut self, call: &Call) {
        let content = call.input.len() - frames::CONTENT;
        self.event_if(Event::LastKept, frames::number(&call.input) == MOST_NUMBER);
        self.event_if(Event::EmptyContent, content == 0);
        self.event_if(Event::FullContent, content == MOST_CONTENT);
    }

    fn accepted(&mut self, call: &Call, answer: Answer, arena: &Arena) {
        let record = arena.after(0, Part::Record);
        let written = &record[TOKEN..TOKEN + usize::from(record[TOKEN_SIZE])];
        let (taken_highest, highest) = (get4(&call.input, frames::HIGHEST), get4(written, frames::HIGHEST));
        let new = highest - taken_highest;
        let requests = |token| usize::from(get2(token, frames::REQUEST_COUNT));
        self.event_if(Event::Deaf, answer.deaf != 0);
        self.event_if(Event::RequestsTaken, requests(&call.input) == MOST_REQUESTS);
        self.event_if(Event::RequestsWritten, requests(written) == MOST_REQUESTS);
        self.event_if(Event::RoundFull, get2(written, frames::ROUND) == MOST_ROUND);
        self.event_if(Event::StallFull, record[STALL] == 255);
        self.event_if(Event::EightNew, new == 8);
        self.event_if(Event::SixteenRepeats, u32::from(record[BROADCAST]) - new == 16);
        self.event_if(Event::FramesFull, usize::from(answer.frames) == FRAMES_LEN);
        self.event_if(Event::HighNumbers, highest >= MOST_NUMBER - HELD_PLACES);
        self.event_if(Event::LastNumbered, new > 0 && highest == MOST_NUMBER);
        self.event_if(Event::LastToken, frames::number(&call.input) == MOST_NUMBER - 1);
        self.flow(&Flow::of(arena.before(Part::Record), &call.input, record));
    }

    fn flow(&mut self, flow: &Flow) {
        self.backlogs.note(flow.backlog.into());
        self.own_parts.note(flow.own_part.into());
        self.event_if(Event::ShareLimits, flow.is_limited_by_share());
        self.event_if(Event::ShareNone, flow.has_no_share());
        self.event_if(Event::OwnPartAbove, u16::from(flow.own_part) > flow.backlog);
        self.event_if(Event::BacklogCut, flow.is_backlog_cut());
    }

    fn delivered(&mut self, answer: Answer, arena: &Arena) {
        let bytes = &arena.after(0, Part::Deliveries)[..answer.deliveries.into()];
        self.event_if(Event::DeliveriesFull, bytes.len() == DELIVERIES_LEN);
        self.event_if(Event::SafeDelivered, get2(bytes, frames::SERVICE) == 1);
        let level = |record| get4(record, LEVEL);
        let (before, after) = (arena.before(Part::Record), arena.after(0, Part::Record));
        self.event_if(Event::LevelJumps, level(after) > level(before) + 1);
    }

    pub fn add(&mut self, other: &Coverage) {
        let counts = self.refusals.as_flattened_mut().iter_mut();
        let counts = counts.chain(&mut self.outcomes).chain(&mut self.rings);
        let others = other.refusals.as_flattened().iter();
        let others = others.chain(&other.outcomes).chain(&other.rings);
        for (count, more) in counts.chain(&mut self.events).zip(others.chain(&other.events)) {
            *count += more;
        }
        self.damaged.add(&other.damaged);
        self.backlogs.add(&other.backlogs);
        self.own_parts.add(&other.own_parts);
        self.panel_kept.add(&other.panel_kept);
        self.panel_accepted.add(&other.panel_accepted);
        self.panel_refused.add(&other.panel_refused);
    }

    fn ranges(&self) -> [&Seen; 6] {
        [
            &self.damaged,
            &self.backlogs,
            &self.own_parts,
            &self.panel_kept,
            &self.panel_accepted,
            &self.panel_refused,
        ]
    }

    /// Each item that has to come up, with its count.
    fn items(&self) -> Vec<(String, u64)> {
        let mut items = Vec::new();
        let asks = [Ask::Found { own: 0, ring: 0 }, Ask::Post { service: 0 }, Ask::Arrive, Ask::Resend];
        for ask in asks {
            let (name, counts) = (Ask::NAMES[ask.place()], self.refusals[ask.place()]);
            for question in ask.questions() {
                items.push((format!("{name} no {question}"), counts[usize::from(*question)]));
            }
        }
        for (name, count) in OUTCOMES.iter().zip(self.outcomes).skip(1) {
            items.push((name.to_string(), count));
        }
        for (members, count) in self.rings.iter().enumerate().skip(2) {
            items.push((format!("founded by {members}"), *count));
        }
        for (name, count) in EVENTS.iter().zip(self.events) {
            items.push((name.to_string(), count));
        }
        items
    }

    pub fn print(&self) {
        let items = self.items();
        for row in items.chunks(4) {
            let cells: Vec<String> = row.iter().map(|(name, count)| format!("{name}: {count}")).collect();
            println!("  {}", cells.join(" | "));
        }
        println!("  {}", self.ranges().map(Seen::line).join(" | "));
    }

    /// What never came up.
    pub fn missing(&self) -> Vec<String> {
        let items = self.items().into_iter().filter(|item| item.1 == 0);
        let mut missing: Vec<String> = items.map(|item| item.0).collect();
        missing.extend(self.ranges().into_iter().filter_map(Seen::missing));
        missing
    }
}

/// Whether the call is lent an empty buffer.
fn lends_empty(call: &Call) -> bool {
    let (frames, deliveries) = call.ask.rooms();
    let has_input = call.ask != Ask::Resend;
    call.record_len == 0
        || has_input && call.input.is_empty()
        || frames > 0 && call.frames_len == 0
        || deliveries > 0 && call.deliveries_len == 0
}
