//! How often each thing has happened that can happen.

mod reachable;

use crate::laws::Sight;
use reachable::reachable;
use std::collections::BTreeMap;
use std::fmt;

#[derive(Debug, Default)]
pub struct Coverage {
    counts: BTreeMap<Sight, u64>,
}

impl Coverage {
    pub fn count(&mut self, sight: Sight) {
        *self.counts.entry(sight).or_default() += 1;
    }

    /// What can be reached but was not.
    pub fn missing(&self) -> Vec<Sight> {
        let mut missing = reachable();
        missing.retain(|sight| !self.counts.contains_key(sight));
        missing
    }

    /// What was reached although the documents leave no way to it.
    pub fn unforeseen(&self) -> Vec<Sight> {
        let mut seen: Vec<Sight> = self.counts.keys().copied().collect();
        let foreseen = reachable();
        seen.retain(|sight| !foreseen.contains(sight));
        seen
    }

    pub fn is_complete(&self) -> bool {
        self.missing().is_empty() && self.unforeseen().is_empty()
    }
}

/// A table of all that can be reached, with its counts.
impl fmt::Display for Coverage {
    fn fmt(&self, formatter: &mut fmt::Formatter) -> fmt::Result {
        for sight in reachable() {
            let count = self.counts.get(&sight).copied().unwrap_or(0);
            let remark = if count == 0 { "  MISSING" } else { "" };
            writeln!(formatter, "{count:>9}  {sight}{remark}")?;
        }
        for sight in self.unforeseen() {
            writeln!(formatter, "{:>9}  {sight}  UNFORESEEN", self.counts[&sight])?;
        }
        Ok(())
    }
}
