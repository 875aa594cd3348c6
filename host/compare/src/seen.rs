//! A range of values, from 0 on, all of which have to come up.

pub struct Seen {
    what: &'static str,
    values: Vec<bool>,
}

impl Seen {
    pub fn none(what: &'static str, count: usize) -> Seen {
        Seen { what, values: vec![false; count] }
    }

    pub fn note(&mut self, value: usize) {
        self.values[value] = true;
    }

    pub fn add(&mut self, other: &Seen) {
        for (seen, too) in self.values.iter_mut().zip(&other.values) {
            *seen |= too;
        }
    }

    pub fn line(&self) -> String {
        let seen = self.values.iter().filter(|seen| **seen).count();
        format!("{}: {seen} of {}", self.what, self.values.len())
    }

    /// The first that never came up.
    pub fn missing(&self) -> Option<String> {
        let value = self.values.iter().position(|seen| !seen)?;
        Some(format!("{}: {value}", self.what))
    }
}
