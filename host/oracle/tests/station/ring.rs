//! Whole rings on a cable that loses, repeats and reorders: records stay whole, all stations deliver the
//! same list as far as they deliver, and without losses everything posted arrives everywhere.

use crate::support::*;

struct Ring {
    stations: Vec<Station>,
    /// Every frame written for the cable.
    cable: Vec<Vec<u8>>,
    lists: Vec<Vec<Vec<u8>>>,
    posted: usize,
}

impl Ring {
    fn new(ids: &[u16]) -> Ring {
        let (stations, tokens): (Vec<_>, Vec<_>) =
            ids.iter().map(|own| Station::new(ids, *own, RING_NUMBER)).unzip();
        Ring { lists: vec![Vec::new(); ids.len()], stations, cable: tokens[..1].to_vec(), posted: 0 }
    }

    fn post(&mut self, place: usize, service: u16, content: &[u8]) {
        let answer = self.stations[place].post(service, content);
        self.posted += usize::from(answer.outcome == POSTED);
    }

    fn arrive(&mut self, place: usize, frame: &[u8]) {
        let reply = self.stations[place].arrive(frame);
        assert!([0, 15, 16, 18].contains(&reply.answer.refusal), "refusal {}", reply.answer.refusal);
        assert!(self.stations[place].is_whole());
        self.cable.extend(reply.frames);
        self.lists[place].extend(reply.deliveries);
    }

    fn check_lists(&self) {
        let longest = self.lists.iter().max_by_key(|list| list.len()).unwrap();
        for list in &self.lists {
            assert_eq!(list[..], longest[..list.len()]);
        }
        for (frame, number) in longest.iter().zip(1u32..) {
            assert_eq!(frame[12..16], number.to_le_bytes());
        }
    }
}

/// Hands frames over as chance has it: mostly new ones, each now and then lost or repeated.
fn run(ids: &[u16], seed: u64, calls: usize) -> Ring {
    let mut chance = Chance::new(seed);
    let mut ring = Ring::new(ids);
    for _ in 0..calls {
        let place = chance.below(ids.len());
        match chance.below(10) {
            0 => {
                let content = vec![chance.below(256) as u8; chance.below(65)];
                ring.post(place, chance.below(2) as u16, &content);
            }
            1 => {
                let frames = ring.stations[place].resend().frames;
                ring.cable.extend(frames);
            }
            _ => {
                let recent = chance.below(ring.cable.len().min(40));
                let frame = ring.cable[ring.cable.len() - 1 - recent].clone();
                ring.arrive(place, &frame);
            }
        }
    }
    ring
}

/// From now on every frame reaches everybody, the latest of those on the cable too, while the token goes
/// round many times.
fn settle(ring: &mut Ring) {
    let latest = ring.cable.len().saturating_sub(200);
    for next in latest..latest + 2000 {
        let frame = ring.cable[next].clone();
        for place in 0..ring.stations.len() {
            ring.arrive(place, &frame);
        }
    }
}

#[test]
fn one_list_on_a_bad_cable() {
    let mut delivered = 0;
    for seed in 1..=12 {
        for ids in [&[3, 7][..], &[3, 9, 7], &[1, 8, 2, 7, 3, 6, 4, 5]] {
            let ring = run(ids, seed, 3000);
            ring.check_lists();
            delivered += ring.lists.iter().map(Vec::len).sum::<usize>();
        }
    }
    assert!(delivered > 1000, "only {delivered} messages were delivered");
}

#[test]
fn everything_arrives_on_a_good_cable() {
    for seed in 1..=6 {
        for ids in [&[3, 7][..], &[3, 9, 7], &[1, 8, 2, 7, 3, 6, 4, 5]] {
            let mut ring = run(ids, seed, 1500);
            settle(&mut ring);
            ring.check_lists();
            for list in &ring.lists {
                assert_eq!(list.len(), ring.posted);
            }
        }
    }
}
