//! Finds the shortest history that shows a difference: calls are left out, then what is left is made simpler,
//! as long as a difference of the same kind still shows.

use crate::arena::Arena;
use crate::compare::Kind;
use crate::simplify::simpler;
use crate::tester::{replay, Case};

struct Shrinker {
    arena: Arena,
    kind: Kind,
    best: Case,
}

pub fn shrink(case: &Case) -> Case {
    let mut arena = Arena::new();
    let Some(difference) = replay(&mut arena, case).1 else {
        return case.clone();
    };
    let mut shrinker = Shrinker { arena, kind: difference.kind, best: case.clone() };
    loop {
        let shorter = shrinker.leave_out();
        if !shrinker.simplify() && !shorter {
            return shrinker.best;
        }
    }
}

impl Shrinker {
    /// Takes the case over if it shows the difference; what comes after that is cut off.
    fn try_case(&mut self, mut case: Case) -> bool {
        let (answers, difference) = replay(&mut self.arena, &case);
        if difference.is_none_or(|difference| difference.kind != self.kind) {
            return false;
        }
        case.calls.truncate(answers.len() + 1);
        self.best = case;
        true
    }

    /// Leaves out runs of calls, long ones first.
    fn leave_out(&mut self) -> bool {
        let before = self.best.calls.len();
        let mut run = before;
        while run > 0 {
            let mut at = 0;
            while at < self.best.calls.len() {
                let mut case = self.best.clone();
                let end = case.calls.len().min(at + run);
                case.calls.drain(at..end);
                if !self.try_case(case) {
                    at += run;
                }
            }
            run /= 2;
        }
        self.best.calls.len() < before
    }

    fn simplify(&mut self) -> bool {
        let mut simplified = false;
        loop {
            let best = self.best.clone();
            if !simpler(&best).any(|case| self.try_case(case)) {
                return simplified;
            }
            simplified = true;
        }
    }
}
