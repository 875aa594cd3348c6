//! Calls at whole records far from founding, each with a handful of steps that go on from there.

use crate::call::{Ask, Call};
use crate::choices;
use crate::fitting;
use crate::tester::{Outcome, Station, Tester};
use crate::whole;

pub fn run(tester: &mut Tester) -> Outcome<()> {
    let mut station = Station::built(whole::build(&mut tester.chance));
    for _ in 0..tester.chance.from(1, 12) {
        step(tester, &mut station)?;
    }
    Ok(())
}

/// A call that fits the station's record; now and then with short buffers before.
pub fn step(tester: &mut Tester, station: &mut Station) -> Outcome<()> {
    let (ask, input) = match tester.chance.below(16) {
        0..=7 => (Ask::Arrive, fitting::token(&mut tester.chance, &station.record)),
        8..=12 => (Ask::Arrive, fitting::message(&mut tester.chance, &station.record)),
        13 | 14 => choices::post(&mut tester.chance),
        _ => (Ask::Resend, Vec::new()),
    };
    if tester.chance.one_in(20) {
        let mut call = Call::new(ask, input.clone(), tester.noise());
        choices::shorten(&mut tester.chance, &mut call);
        tester.call(station, call)?;
    }
    tester.ask(station, ask, input)?;
    Ok(())
}
