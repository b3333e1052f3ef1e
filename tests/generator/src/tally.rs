//! How often each outcome occurs.

use reference::Answer;
use std::collections::BTreeMap;

/// Outcomes and how often each was seen.
#[derive(Clone, Debug, Default)]
pub struct Tally {
    counts: BTreeMap<String, usize>,
}

impl Tally {
    /// Counts an answer.
    pub fn add(&mut self, answer: &Answer) {
        let name = match answer {
            Answer::Picture { .. } => "drawn".to_string(),
            Answer::WellFormed => "well formed".to_string(),
            Answer::Number { number, .. } => number.to_string(),
        };
        *self.counts.entry(name).or_default() += 1;
    }

    /// How often an outcome was seen.
    pub fn of(&self, name: &str) -> usize {
        self.counts.get(name).copied().unwrap_or(0)
    }

    /// Every outcome that was seen, in order.
    pub fn all(&self) -> impl Iterator<Item = (&str, usize)> {
        self.counts
            .iter()
            .map(|(name, count)| (name.as_str(), *count))
    }
}
