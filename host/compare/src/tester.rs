//! Makes calls at stations, one after another, and keeps what each station was handed, so that a difference
//! can be shown from its beginning.

use crate::arena::{Arena, Part};
use crate::call::{Ask, Call};
use crate::chance::Chance;
use crate::compare::{compare, Difference};
use crate::coverage::Coverage;
use crate::crash;
use crate::layout::RECORD_LEN;
use crate::sides::Answer;

/// A station's record at the beginning, and the calls at it since. What a call does depends on these alone.
#[derive(Clone)]
pub struct Case {
    pub record: Vec<u8>,
    pub calls: Vec<Call>,
}

pub struct Station {
    pub record: Vec<u8>,
    case: Case,
}

impl Station {
    /// With a record to be founded.
    pub fn empty() -> Station {
        Station::built(vec![0; RECORD_LEN])
    }

    pub fn built(record: Vec<u8>) -> Station {
        let case = Case { record: record.clone(), calls: Vec::new() };
        Station { record, case }
    }
}

/// What a source of calls answers: nothing, or the calls whose last one shows a difference.
pub type Outcome<T> = Result<T, Box<Case>>;

pub struct Tester {
    pub chance: Chance,
    pub coverage: Coverage,
    pub calls: u64,
    arena: Arena,
}

impl Tester {
    pub fn new(chance: Chance) -> Tester {
        Tester { chance, coverage: Coverage::new(), calls: 0, arena: Arena::new() }
    }

    pub fn noise(&mut self) -> u16 {
        self.chance.word()
    }

    /// With buffers for output of the lengths that the call asks, or longer ones.
    pub fn ask(&mut self, station: &mut Station, ask: Ask, input: Vec<u8>) -> Outcome<Answer> {
        let mut call = Call::new(ask, input, self.noise());
        if self.chance.one_in(8) {
            let (frames, deliveries) = ask.rooms();
            call.frames_len = frames + self.chance.place(100).min(frames);
            call.deliveries_len = deliveries + self.chance.place(100).min(deliveries);
        }
        self.call(station, call)
    }

    pub fn call(&mut self, station: &mut Station, call: Call) -> Outcome<Answer> {
        self.calls += 1;
        station.case.calls.push(call);
        let call = &station.case.calls[station.case.calls.len() - 1];
        match step(&mut self.arena, call, &mut station.record) {
            Ok(answer) => {
                self.coverage.note(call, answer, &self.arena);
                Ok(answer)
            }
            Err(_) => Err(Box::new(station.case.clone())),
        }
    }

    /// The frames that the last call wrote.
    pub fn frames(&self, answer: Answer) -> &[u8] {
        &self.arena.after(0, Part::Frames)[..answer.frames.into()]
    }
}

/// One call on both sides; the record then has what it left there.
fn step(arena: &mut Arena, call: &Call, record: &mut [u8]) -> Result<Answer, Difference> {
    crash::remember(call, record);
    let answer = compare(arena, call, record)?;
    let after = arena.after(0, Part::Record);
    let lent = after.len().min(record.len());
    record[..lent].copy_from_slice(&after[..lent]);
    Ok(answer)
}

/// The case again, up to its first difference: the answers before it, and the difference.
pub fn replay(arena: &mut Arena, case: &Case) -> (Vec<Answer>, Option<Difference>) {
    let mut record = case.record.clone();
    let mut answers = Vec::new();
    for call in &case.calls {
        match step(arena, call, &mut record) {
            Ok(answer) => answers.push(answer),
            Err(difference) => return (answers, Some(difference)),
        }
    }
    (answers, None)
}
