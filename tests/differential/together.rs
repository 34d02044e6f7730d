//! Which two refusals of a call held together in the comparison.

use crate::rules::Refusal;
use std::collections::BTreeMap;

/// How often each two did, the one that is tried first before the other.
#[derive(Default)]
pub struct Together(BTreeMap<(u64, u64), u64>);

impl Together {
    /// Counts those that hold, which come in the order in which they are tried.
    pub fn count(&mut self, faults: &[Refusal]) {
        for (i, first) in faults.iter().enumerate() {
            for second in &faults[i + 1..] {
                *self.0.entry((first.number, second.number)).or_default() += 1;
            }
        }
    }

    pub fn print(&self, call: &str) {
        let pairs: Vec<String> = self.0.iter().map(|((first, second), count)| format!("{first} {second}: {count}")).collect();
        println!("two refusals of a {call}, the first given: {}", pairs.join(", "));
    }

    /// Which of these never held together.
    pub fn missing(&self, call: &str, conflicts: Vec<(u64, u64)>) -> Vec<String> {
        let never = conflicts.into_iter().filter(|pair| !self.0.contains_key(pair));
        never.map(|(first, second)| format!("{first} before {second} by {call}")).collect()
    }
}
