//! The lent buffers: a block of bytes for each side, alike before the call, in which the buffers stand
//! between guard bytes. What the blocks were before the call is kept beside them.

use std::ops::Range;

use crate::call::Call;
use crate::chance::Chance;
use crate::sides::{Answer, Buffers, Lent, SIDES};

#[derive(Clone, Copy, PartialEq, Eq, Debug)]
pub enum Part {
    Record,
    Input,
    Frames,
    Deliveries,
    Guard,
}

const LENT: [Part; 4] = [Part::Record, Part::Input, Part::Frames, Part::Deliveries];

/// The longest of all buffers together, guards too.
const MOST: usize = 300_000;
/// Beginnings of the noise that fills a block.
const BEGINNINGS: usize = 4096;
const LEAST_GUARD: usize = 32;

pub struct Arena {
    noise: Vec<u8>,
    parts: [Range<usize>; 4],
    len: usize,
    before: Vec<u8>,
    after: [Vec<u8>; 2],
}

impl Arena {
    pub fn new() -> Arena {
        Arena {
            noise: Chance::new(0, 0).bytes(MOST + BEGINNINGS),
            parts: [0..0, 0..0, 0..0, 0..0],
            len: 0,
            before: vec![0; MOST],
            after: [vec![0; MOST], vec![0; MOST]],
        }
    }

    /// Lays the blocks out: the record, or as much of it as is lent, and the input; noise elsewhere.
    fn lay(&mut self, call: &Call, record: &[u8]) {
        let input_len = call.input.len();
        let lens = [call.record_len, input_len, call.frames_len, call.deliveries_len];
        // Guards of different lengths, so that buffers begin at odd addresses too.
        let guard = LEAST_GUARD + usize::from(call.noise >> 12);
        let mut at = guard;
        for (place, len) in lens.into_iter().enumerate() {
            self.parts[place] = at..at + len;
            at += len + guard;
        }
        assert!(at <= MOST, "the buffers of a call are too long");
        self.len = at;
        let from = usize::from(call.noise) % BEGINNINGS;
        self.before[..at].copy_from_slice(&self.noise[from..from + at]);
        let whole = record.len().min(call.record_len);
        let start = self.parts[0].start;
        self.before[start..start + whole].copy_from_slice(&record[..whole]);
        self.before[self.parts[1].clone()].copy_from_slice(&call.input);
        for after in &mut self.after {
            after[..at].copy_from_slice(&self.before[..at]);
        }
    }

    fn lent(&mut self, side: usize, part: usize, null: bool) -> Lent {
        let bytes = &mut self.after[side][self.parts[part].clone()];
        if bytes.is_empty() && null {
            return (std::ptr::null_mut(), 0);
        }
        (bytes.as_mut_ptr(), bytes.len())
    }

    /// Makes the call on both sides.
    pub fn make(&mut self, call: &Call, record: &[u8]) -> [Answer; 2] {
        self.lay(call, record);
        let null = call.lends_null();
        [0, 1].map(|side| {
            let buffers = Buffers {
                record: self.lent(side, 0, null),
                input: self.lent(side, 1, null),
                frames: self.lent(side, 2, null),
                deliveries: self.lent(side, 3, null),
            };
            // SAFETY: each buffer has its own bytes of the side's block, and nothing else uses it meanwhile.
            unsafe { (SIDES[side].make)(call.ask, &buffers) }
        })
    }

    /// Where a part stands in the block; of the guard, which is all around, the whole block.
    pub fn range(&self, part: Part) -> Range<usize> {
        match LENT.iter().position(|lent| *lent == part) {
            Some(place) => self.parts[place].clone(),
            None => 0..self.len,
        }
    }

    pub fn before(&self, part: Part) -> &[u8] {
        &self.before[self.range(part)]
    }

    pub fn after(&self, side: usize, part: Part) -> &[u8] {
        &self.after[side][self.range(part)]
    }

    /// Which part a byte of the block is in, and its offset there; of a guard byte, its offset from the end
    /// of the buffer before it.
    pub fn locate(&self, at: usize) -> (Part, usize) {
        let place = self.parts.iter().position(|range| range.contains(&at));
        match place {
            Some(place) => (LENT[place], at - self.parts[place].start),
            None => (Part::Guard, at - self.buffer_before(at).map_or(0, |place| self.parts[place].end)),
        }
    }

    fn buffer_before(&self, at: usize) -> Option<usize> {
        self.parts.iter().rposition(|range| range.end <= at)
    }

    /// The buffer before a guard byte; without one, the byte stands before all of them.
    pub fn guarded(&self, at: usize) -> Option<Part> {
        self.buffer_before(at).map(|place| LENT[place])
    }

    /// The first byte of a side's block that the call altered outside these ranges, which are in order.
    pub fn altered_outside(&self, side: usize, allowed: &[Range<usize>]) -> Option<usize> {
        let mut from = 0;
        for range in allowed {
            if let Some(at) = self.altered(side, from..range.start) {
                return Some(at);
            }
            from = range.end;
        }
        self.altered(side, from..self.len)
    }

    fn altered(&self, side: usize, range: Range<usize>) -> Option<usize> {
        first_unequal(&self.before[range.clone()], &self.after[side][range.clone()])
            .map(|at| range.start + at)
    }

    /// The first byte in which the two blocks differ.
    pub fn unequal(&self) -> Option<usize> {
        first_unequal(&self.after[0][..self.len], &self.after[1][..self.len])
    }
}

fn first_unequal(one: &[u8], other: &[u8]) -> Option<usize> {
    if one == other {
        return None;
    }
    one.iter().zip(other).position(|(one, other)| one != other)
}
