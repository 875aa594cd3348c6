//! Passes: two workers, each with its own random numbers, take turns among the sources of calls. What they
//! try depends on the seed alone.

use std::time::{Duration, Instant};

use crate::chance::Chance;
use crate::coverage::Coverage;
use crate::flags::{Flags, Limit, CALLS};
use crate::show;
use crate::shrink::shrink;
use crate::tester::{Case, Outcome, Tester};
use crate::{damaged_frames, damaged_records, far, founding, history};

const WORKERS: u64 = 2;
/// Each source's name and its share of the calls, of 100.
const SOURCES: [(&str, u64); 5] = [
    ("histories", 45),
    ("whole records", 25),
    ("damaged records", 14),
    ("damaged frames", 10),
    ("foundings", 6),
];

struct Work {
    tester: Tester,
    by_source: [u64; SOURCES.len()],
    /// The byte of the record whose turn it is to be damaged.
    turn: usize,
}

impl Work {
    fn new(seed: u64, worker: u64) -> Work {
        Work { tester: Tester::new(Chance::new(seed, worker)), by_source: [0; SOURCES.len()], turn: 0 }
    }

    /// One history, or a few calls of another source: of the one that is furthest behind its share.
    fn turn(&mut self) -> Outcome<()> {
        let behind = |source: &usize| self.by_source[*source] * 100 / SOURCES[*source].1;
        let source = (0..SOURCES.len()).min_by_key(behind).unwrap_or(0);
        let before = self.tester.calls;
        let outcome = match source {
            0 => history::run(&mut self.tester),
            1 => far::run(&mut self.tester),
            2 => damaged_records::run(&mut self.tester, &mut self.turn),
            3 => damaged_frames::run(&mut self.tester),
            _ => founding::run(&mut self.tester),
        };
        self.by_source[source] += self.tester.calls - before;
        outcome
    }

    fn run(&mut self, calls: u64, deadline: Option<Instant>) -> Outcome<()> {
        while self.tester.calls < calls && !is_over(deadline) {
            self.turn()?;
        }
        Ok(())
    }
}

/// What all passes together have done.
struct Sum {
    calls: u64,
    by_source: [u64; SOURCES.len()],
    coverage: Coverage,
}

impl Sum {
    fn add(&mut self, work: &Work) {
        self.calls += work.tester.calls;
        self.coverage.add(&work.tester.coverage);
        for (all, more) in self.by_source.iter_mut().zip(work.by_source) {
            *all += more;
        }
    }

    fn print(&self) {
        let shares = SOURCES.iter().zip(self.by_source);
        let shares: Vec<String> = shares.map(|(source, calls)| format!("{}: {calls}", source.0)).collect();
        println!("  calls at {}", shares.join(", "));
        self.coverage.print();
    }
}

/// The line that says what was done, or what was found.
pub fn run(flags: &Flags) -> Result<String, String> {
    let begun = Instant::now();
    let mut sum = Sum { calls: 0, by_source: [0; SOURCES.len()], coverage: Coverage::new() };
    println!("compare: seed {}", flags.seed);
    match flags.limit {
        Limit::Calls(calls) => one_pass(flags.seed, calls, None, &mut sum)?,
        Limit::Time(time) => passes(flags.seed, begun, time, &mut sum)?,
    }
    sum.print();
    let missing = sum.coverage.missing();
    if !missing.is_empty() {
        let missing = missing.join(", ");
        return Err(format!("in {} calls these never came up: {missing}", sum.calls));
    }
    let seconds = begun.elapsed().as_secs_f64();
    Ok(format!("{} calls in {seconds:.0} s, no difference", sum.calls))
}

fn passes(first: u64, begun: Instant, time: Duration, sum: &mut Sum) -> Result<(), String> {
    // None for a time so far off that no clock has it.
    let deadline = begun.checked_add(time);
    let mut seed = first;
    while !is_over(deadline) {
        one_pass(seed, CALLS, deadline, sum)?;
        let seconds = begun.elapsed().as_secs();
        println!("compare: up to seed {seed}: {} calls in {seconds} s", sum.calls);
        seed = seed.wrapping_add(1);
    }
    Ok(())
}

fn is_over(deadline: Option<Instant>) -> bool {
    deadline.is_some_and(|deadline| Instant::now() >= deadline)
}

fn one_pass(seed: u64, calls: u64, deadline: Option<Instant>, sum: &mut Sum) -> Result<(), String> {
    let found = std::thread::scope(|scope| {
        let start = |worker| {
            scope.spawn(move || {
                let mut work = Work::new(seed, worker);
                let outcome = work.run(calls.div_ceil(WORKERS), deadline);
                (work, outcome)
            })
        };
        let threads: Vec<_> = (0..WORKERS).map(start).collect();
        let mut found = None;
        for thread in threads {
            let (work, outcome) = thread.join().expect("a worker does not panic");
            sum.add(&work);
            found = found.or(outcome.err());
        }
        found
    });
    match found {
        None => Ok(()),
        Some(case) => Err(report(seed, &case)),
    }
}

/// Prints the shortest history that shows the difference.
fn report(seed: u64, case: &Case) -> String {
    let case = shrink(case);
    show::case(&case);
    format!("library and oracle differ, seed {seed}; the history above shows it")
}
