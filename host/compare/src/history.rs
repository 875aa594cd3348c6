//! Histories: rings of 2 to 8 stations over a cable with faults, from founding or from records that stand
//! alike at any number.

use crate::cable::{Cable, Faults};
use crate::call::{Ask, Call};
use crate::chance::Chance;
use crate::choices;
use crate::coverage::Event;
use crate::frames::{self, Ring, Token};
use crate::layout::*;
use crate::sides::Answer;
use crate::tester::{Outcome, Station, Tester};
use crate::whole;

struct History {
    stations: Vec<Station>,
    cable: Cable,
    founded: bool,
    /// Posts, of 1,000 steps.
    posting: u32,
    /// Foreign and past frames and short buffers, of 1,000 steps.
    odd: u32,
}

pub fn run(tester: &mut Tester) -> Outcome<()> {
    let mut left = tester.chance.from(200, 2500);
    let mut history = begin(tester, left)?;
    while left > 0 {
        left -= 1;
        if history.cable.is_at_end() {
            left = left.min(30);
        }
        history.step(tester)?;
    }
    Ok(())
}

fn begin(tester: &mut Tester, steps: u32) -> Outcome<History> {
    let count = choices::member_count(&mut tester.chance);
    let members = choices::members(&mut tester.chance, count);
    let ring = choices::number(&mut tester.chance);
    let faults = Faults::choose(&mut tester.chance, count, steps);
    let founded = !tester.chance.one_in(4);
    let (stations, token) =
        if founded { found(tester, &members, ring)? } else { alike(&mut tester.chance, &members, ring) };
    Ok(History {
        stations,
        cable: Cable::new(faults, &members, token),
        founded,
        posting: tester.chance.pick(&[5, 20, 60, 150]),
        odd: tester.chance.pick(&[0, 10, 50]),
    })
}

fn found(tester: &mut Tester, members: &[u16], ring: u32) -> Outcome<(Vec<Station>, Vec<u8>)> {
    let mut stations = Vec::new();
    let mut token = Vec::new();
    for own in members {
        let mut station = Station::empty();
        let list = choices::member_bytes(members);
        let answer = tester.ask(&mut station, Ask::Found { own: *own, ring }, list)?;
        token = tester.frames(answer).to_vec();
        stations.push(station);
    }
    Ok((stations, token))
}

/// Stations that have had and delivered all up to some number, and the token that comes next.
fn alike(chance: &mut Chance, members: &[u16], ring: u32) -> (Vec<Station>, Vec<u8>) {
    let near_end = chance.one_in(2);
    let mark = match near_end {
        true => MOST_NUMBER - chance.below(200),
        false => choices::mark(chance),
    };
    let token_number = match near_end {
        true => MOST_NUMBER - 2 - chance.below(400),
        false => chance.below(MOST_NUMBER - 1),
    };
    let station = |own: &u16| {
        let mut record = whole::fresh(members, *own, ring);
        for field in [LEVEL, SAFE, DELIVERED, ARU, EARLIER_ARU] {
            put4(&mut record, field, mark);
        }
        put4(&mut record, TOKEN_NUMBER, token_number);
        Station::built(record)
    };
    let ring = Ring { number: ring, representative: members[0] };
    let token = ring.token(&Token {
        addressee: members[0],
        number: token_number + 1,
        highest: mark,
        aru: mark,
        blocker: 0,
        round: 0,
        backlog: 0,
        requests: Vec::new(),
    });
    (members.iter().map(station).collect(), token)
}

impl History {
    fn step(&mut self, tester: &mut Tester) -> Outcome<()> {
        self.cable.time += 1;
        if tester.chance.permille(self.posting) {
            return self.post(tester);
        }
        if tester.chance.permille(self.odd) {
            return self.odd_call(tester);
        }
        match self.cable.take(&mut tester.chance, &mut tester.coverage) {
            Some((place, frame)) => self.arrive(tester, place, frame),
            None if self.cable.is_quiet() => self.wake(tester),
            None => Ok(()),
        }
    }

    /// One post or a burst of them.
    fn post(&mut self, tester: &mut Tester) -> Outcome<()> {
        let place = tester.chance.place(self.stations.len());
        let burst = tester.chance.pick(&[1, 1, 1, 1, 1, 1, 1, 1, 3, 20]);
        for _ in 0..burst {
            let (ask, content) = choices::post(&mut tester.chance);
            tester.ask(&mut self.stations[place], ask, content)?;
        }
        Ok(())
    }

    fn arrive(&mut self, tester: &mut Tester, place: usize, frame: Vec<u8>) -> Outcome<()> {
        let answer = tester.ask(&mut self.stations[place], Ask::Arrive, frame)?;
        if answer.deaf != 0 && self.founded {
            tester.coverage.event(Event::DeafInHistory);
        }
        self.send(tester, place, answer);
        Ok(())
    }

    fn send(&mut self, tester: &mut Tester, from: usize, answer: Answer) {
        for frame in frames::split(tester.frames(answer)) {
            self.cable.send(&mut tester.chance, &mut tester.coverage, from, frame);
        }
    }

    /// A frame of the past or of another ring, or a call with short buffers.
    fn odd_call(&mut self, tester: &mut Tester) -> Outcome<()> {
        let place = tester.chance.place(self.stations.len());
        let mut frame = self.cable.past(&mut tester.chance);
        match tester.chance.below(5) {
            0 => {
                let number = choices::number(&mut tester.chance);
                put4(&mut frame, frames::RING, number);
            }
            1 => {
                let id = tester.chance.word();
                put2(&mut frame, frames::REPRESENTATIVE, id);
            }
            2 => {
                let (ask, input) = match tester.chance.below(2) {
                    0 => (Ask::Arrive, frame),
                    _ => (Ask::Resend, Vec::new()),
                };
                let mut call = Call::new(ask, input, tester.noise());
                choices::shorten(&mut tester.chance, &mut call);
                tester.call(&mut self.stations[place], call)?;
                return Ok(());
            }
            _ => (),
        }
        self.arrive(tester, place, frame)
    }

    /// Nothing is under way: a station resends the token, or its newest copy comes late.
    fn wake(&mut self, tester: &mut Tester) -> Outcome<()> {
        let first = tester.chance.place(self.stations.len());
        for turn in 0..self.stations.len() {
            let place = (first + turn) % self.stations.len();
            let answer = tester.ask(&mut self.stations[place], Ask::Resend, Vec::new())?;
            self.send(tester, place, answer);
            if answer.refusal == 0 && tester.chance.one_in(2) {
                return Ok(());
            }
        }
        self.cable.renew();
        Ok(())
    }
}
