//! Counts of what was made: cases of each operation, refusals of each number.

use crate::ops;
use std::collections::BTreeMap;
use std::fmt;

#[derive(Default)]
pub struct Tally {
    /// By operation, then by the answer's number, which is 0 for an acceptance.
    counts: BTreeMap<u32, BTreeMap<u64, u64>>,
    cases: u64,
    bytes: u64,
}

impl Tally {
    pub fn add(&mut self, op: u32, number: u64, bytes: usize) {
        *self.counts.entry(op).or_default().entry(number).or_default() += 1;
        self.cases += 1;
        self.bytes += bytes as u64;
    }

    /// Refusals of each number over all operations.
    pub fn refusals(&self) -> BTreeMap<u64, u64> {
        let mut found = BTreeMap::new();
        for (number, count) in self.counts.values().flatten().filter(|(number, _)| **number != 0) {
            *found.entry(*number).or_default() += count;
        }
        found
    }

    #[cfg(test)]
    pub fn of(&self, op: u32) -> BTreeMap<u64, u64> {
        self.counts.get(&op).cloned().unwrap_or_default()
    }
}

fn listed<'a>(counts: impl IntoIterator<Item = (&'a u64, &'a u64)>) -> String {
    let each = counts.into_iter().map(|(number, count)| format!("{number}: {count}"));
    let text = each.collect::<Vec<String>>().join(", ");
    if text.is_empty() {
        "none".to_string()
    } else {
        text
    }
}

impl fmt::Display for Tally {
    fn fmt(&self, out: &mut fmt::Formatter) -> fmt::Result {
        writeln!(out, "{:>3}  {:26}{:>9}  refusals", "op", "call", "cases")?;
        for (op, counts) in &self.counts {
            let name = ops::find(*op).map_or("", |op| op.name);
            let cases: u64 = counts.values().sum();
            let refused = listed(counts.iter().filter(|(number, _)| **number != 0));
            writeln!(out, "{op:>3}  {name:26}{cases:>9}  {refused}")?;
        }
        writeln!(out, "refusals by number: {}", listed(&self.refusals()))?;
        write!(out, "{} cases, {} bytes", self.cases, self.bytes)
    }
}

#[cfg(test)]
mod tests {
    use super::*;

    #[test]
    fn acceptances_are_no_refusals() {
        let mut tally = Tally::default();
        tally.add(1, 0, 10);
        tally.add(1, 2, 10);
        tally.add(50, 2, 10);
        let text = tally.to_string();
        assert!(text.contains("refusals by number: 2: 2\n"));
        assert!(text.ends_with("3 cases, 30 bytes"));
    }
}
