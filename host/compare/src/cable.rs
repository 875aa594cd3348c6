//! The cable between a ring's stations: it loses, repeats and delays frames and lets them overtake.

use std::ops::Range;

use crate::chance::Chance;
use crate::coverage::{Coverage, Event};
use crate::frames;
use crate::layout::{get2, MOST_NUMBER};

/// How often each fault comes up, of 1,000 frames.
#[derive(Clone)]
pub struct Faults {
    pub lose: u32,
    pub repeat: u32,
    pub delay: u32,
    pub overtake: u32,
    /// Tokens reach all stations, not their addressee alone.
    pub all_hear: bool,
    /// No message reaches this place at these times.
    pub cut_off: Option<(usize, Range<u32>)>,
}

impl Faults {
    pub fn choose(chance: &mut Chance, count: usize, steps: u32) -> Faults {
        let (lose, repeat, delay, overtake) = match chance.below(6) {
            0 => (0, 0, 0, 0),
            1 => (10, 10, 10, 10),
            2 => (60, 60, 60, 100),
            3 => (400, 30, 50, 100),
            4 => (50, 300, 100, 500),
            _ => (20, 20, 400, 50),
        };
        let cut_off = chance.one_in(4).then(|| (chance.place(count), 0..steps * 3 / 4));
        Faults { lose, repeat, delay, overtake, all_hear: chance.one_in(2), cut_off }
    }
}

struct Flight {
    due: u32,
    frame: Vec<u8>,
}

pub struct Cable {
    faults: Faults,
    members: Vec<u16>,
    inboxes: Vec<Vec<Flight>>,
    /// Frames written so far, the last few hundred.
    past: Vec<Vec<u8>>,
    newest_token: Vec<u8>,
    pub time: u32,
}

const MOST_PAST: usize = 300;

impl Cable {
    pub fn new(faults: Faults, members: &[u16], first_token: Vec<u8>) -> Cable {
        let mut cable = Cable {
            faults,
            members: members.to_vec(),
            inboxes: members.iter().map(|_| Vec::new()).collect(),
            past: vec![first_token.clone()],
            newest_token: first_token,
            time: 0,
        };
        cable.renew();
        cable
    }

    /// Puts a frame on the cable for all it is for.
    pub fn send(&mut self, chance: &mut Chance, coverage: &mut Coverage, from: usize, frame: Vec<u8>) {
        let token = frames::is_token(&frame);
        for place in (0..self.members.len()).filter(|place| *place != from) {
            let addressed = get2(&frame, frames::WHO) == self.members[place];
            if !token || addressed || self.faults.all_hear {
                self.fly(chance, coverage, place, &frame);
            }
        }
        if token && frames::number(&frame) > frames::number(&self.newest_token) {
            self.newest_token = frame.clone();
        }
        if self.past.len() < MOST_PAST {
            self.past.push(frame);
        } else {
            self.past[chance.place(MOST_PAST)] = frame;
        }
    }

    fn fly(&mut self, chance: &mut Chance, coverage: &mut Coverage, place: usize, frame: &[u8]) {
        let cut_off = match &self.faults.cut_off {
            Some((cut, times)) => *cut == place && times.contains(&self.time) && !frames::is_token(frame),
            None => false,
        };
        if cut_off || chance.permille(self.faults.lose) {
            return coverage.event(Event::Lost);
        }
        let mut copies = 1;
        while copies < 4 && chance.permille(self.faults.repeat) {
            copies += 1;
            coverage.event(Event::Repeated);
        }
        for _ in 0..copies {
            let mut due = self.time;
            if chance.permille(self.faults.delay) {
                due += chance.from(1, 100);
                coverage.event(Event::Delayed);
            }
            self.inboxes[place].push(Flight { due, frame: frame.to_vec() });
        }
    }

    /// The next frame for a place that has one by now.
    pub fn take(&mut self, chance: &mut Chance, coverage: &mut Coverage) -> Option<(usize, Vec<u8>)> {
        let first = chance.place(self.inboxes.len());
        for turn in 0..self.inboxes.len() {
            let place = (first + turn) % self.inboxes.len();
            let time = self.time;
            let inbox = &mut self.inboxes[place];
            let Some(mut at) = inbox.iter().position(|flight| flight.due <= time) else {
                continue;
            };
            if chance.permille(self.faults.overtake) {
                let other = chance.place(inbox.len());
                if other > at {
                    coverage.event(Event::Overtaken);
                    at = other;
                }
            }
            return Some((place, inbox.remove(at).frame));
        }
        None
    }

    /// Whether frames are still under way.
    pub fn is_quiet(&self) -> bool {
        self.inboxes.iter().all(Vec::is_empty)
    }

    /// The newest token comes once more.
    pub fn renew(&mut self) {
        let addressee = get2(&self.newest_token, frames::WHO);
        let place = self.members.iter().position(|id| *id == addressee);
        self.inboxes[place.unwrap_or(0)].push(Flight { due: self.time, frame: self.newest_token.clone() });
    }

    /// Any frame written so far.
    pub fn past(&self, chance: &mut Chance) -> Vec<u8> {
        self.past[chance.place(self.past.len())].clone()
    }

    /// No token follows the newest one.
    pub fn is_at_end(&self) -> bool {
        frames::number(&self.newest_token) == MOST_NUMBER
    }
}
