//! Which of the 32 numbers above the safe mark are held. A held message's place is its number modulo 32,
//! so the places in use and the safe mark say it all.

use crate::layout::WINDOW;

/// The numbers held: bit i is the safe mark + 1 + i.
#[derive(Clone, Copy)]
pub struct Held {
    safe: u32,
    bits: u32,
}

impl Held {
    /// From the places in use: bit p is place p.
    pub fn new(safe: u32, places: u32) -> Held {
        let bits = places.rotate_right((safe + 1) % WINDOW as u32);
        Held { safe, bits }
    }

    /// Is this number held?
    pub fn has(&self, number: u32) -> bool {
        number > self.safe && !self.is_ahead(number) && self.bits >> (number - self.safe - 1) & 1 == 1
    }

    /// Is this number above the safe mark + 32?
    pub fn is_ahead(&self, number: u32) -> bool {
        number > self.last_place()
    }

    /// The safe mark + 32, the last number that has a place.
    pub fn last_place(&self) -> u32 {
        self.safe + WINDOW as u32
    }

    /// A number from the safe mark + 1 to the safe mark + 32 is held from now on.
    pub fn add(&mut self, number: u32) {
        self.bits |= 1 << (number - self.safe - 1);
    }

    /// Everything up to the new safe mark is let go.
    pub fn let_go(&mut self, safe: u32) {
        self.bits = self.bits.checked_shr(safe - self.safe).unwrap_or(0);
        self.safe = safe;
    }

    /// The number up to which all above the safe mark are held.
    pub fn level(&self) -> u32 {
        self.safe + self.bits.trailing_ones()
    }

    /// How many numbers above this one are held; it is at least the safe mark.
    pub fn count_above(&self, number: u32) -> u8 {
        self.bits.checked_shr(number - self.safe).unwrap_or(0).count_ones() as u8
    }

    /// The highest number held, or the safe mark.
    pub fn highest(&self) -> u32 {
        self.safe + u32::BITS - self.bits.leading_zeros()
    }
}

#[cfg(test)]
mod tests {
    use super::Held;

    /// The numbers held, asked one by one.
    fn numbers(held: &Held) -> Vec<u32> {
        (0..200).filter(|number| held.has(*number)).collect()
    }

    #[test]
    fn places_stand_for_numbers_above_the_safe_mark() {
        let held = Held::new(70, 1 << 7 | 1 << 8 | 1 << 31 | 1 << 0 | 1 << 6);
        assert_eq!(numbers(&held), [71, 72, 95, 96, 102]);
        assert_eq!((held.level(), held.highest()), (72, 102));
        let none = Held::new(70, 0);
        assert_eq!((none.level(), none.highest()), (70, 70));
    }

    #[test]
    fn the_count_above_a_number_leaves_out_what_is_at_or_below_it() {
        let held = Held::new(70, 1 << 7 | 1 << 8 | 1 << 31 | 1 << 0 | 1 << 6);
        let counts = [70, 71, 72, 73, 95, 96, 101, 102].map(|number| held.count_above(number));
        assert_eq!(counts, [5, 4, 3, 3, 2, 1, 1, 0]);
        let all = Held::new(0, u32::MAX);
        for number in 0..=32 {
            assert_eq!(u32::from(all.count_above(number)), 32 - number);
        }
        assert_eq!(all.count_above(2_000_000_000), 0);
    }

    #[test]
    fn what_is_let_go_is_not_held() {
        let mut held = Held::new(0, u32::MAX);
        assert_eq!((held.level(), held.highest()), (32, 32));
        held.let_go(30);
        assert_eq!(numbers(&held), [31, 32]);
        held.add(62);
        assert_eq!((numbers(&held), held.level()), (vec![31, 32, 62], 32));
        let mut all = Held::new(0, u32::MAX);
        all.let_go(32);
        assert_eq!((numbers(&all), all.level(), all.highest()), (vec![], 32, 32));
    }
}
