//! What a test met, counted by name.

use crate::say;
use std::collections::BTreeMap;

#[derive(Default)]
pub struct Tally {
    counts: BTreeMap<String, usize>,
}

impl Tally {
    pub fn add(&mut self, name: &str, count: usize) {
        *self.counts.entry(name.to_string()).or_default() += count;
    }

    pub fn one(&mut self, name: &str) {
        self.add(name, 1);
    }

    /// One more where it is so.
    pub fn one_if(&mut self, name: &str, so: bool) {
        self.add(name, usize::from(so));
    }

    pub fn add_all(&mut self, other: &Tally) {
        other.counts.iter().for_each(|(name, count)| self.add(name, *count));
    }

    pub fn of(&self, name: &str) -> usize {
        self.counts.get(name).copied().unwrap_or(0)
    }

    pub fn print(&self, what: &str) {
        let counts: Vec<String> =
            self.counts.iter().map(|(name, count)| format!("{name}: {count}")).collect();
        say(&format!("{what}: {}", counts.join(", ")));
    }

    pub fn at_least(&self, due: &[(&str, usize)]) {
        for (name, least) in due {
            assert!(self.of(name) >= *least, "{name}: only {}", self.of(name));
        }
    }
}
