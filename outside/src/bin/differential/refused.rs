//! How many were refused, by the refusals' numbers.

use std::collections::BTreeMap;

#[derive(Default)]
pub struct Refused(BTreeMap<usize, u64>);

impl Refused {
    /// Counts one more that a number refuses.
    pub fn count(&mut self, number: usize) {
        *self.0.entry(number).or_default() += 1;
    }

    /// Puts others to these.
    pub fn add(&mut self, others: &Self) {
        for (number, count) in &others.0 {
            *self.0.entry(*number).or_default() += count;
        }
    }

    pub fn sum(&self) -> u64 {
        self.0.values().sum()
    }

    /// The counts of some numbers, as they are printed.
    pub fn by_number(&self, numbers: impl Iterator<Item = usize>) -> String {
        let count = |number: usize| self.0.get(&number).copied().unwrap_or_default();
        let counts: Vec<String> =
            numbers.map(|number| format!("{number}: {}", count(number))).collect();
        counts.join(", ")
    }
}
