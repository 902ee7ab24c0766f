//! The inputs that engines are measured with. They are built in code and always the same.

mod brief;
mod chance;
mod full;
mod mixed;
mod rfe;
mod script;
mod unreadable;

use script::Ranking;

/// An input and what it is called.
pub struct Workload {
    pub name: &'static str,
    pub input: Vec<u8>,
}

impl Workload {
    fn new(name: &'static str, input: Vec<u8>) -> Self {
        Workload { name, input }
    }

    /// Pieces of 40 bytes.
    pub fn records(&self) -> usize {
        self.input.len() / 40
    }
}

const ORDINARY: usize = 200_000;

/// The workloads whose names are wanted, or all of them.
pub fn named(wanted: &[String]) -> Vec<Workload> {
    let is_wanted = |name: &str| wanted.is_empty() || wanted.iter().any(|other| other == name);
    BUILDERS
        .iter()
        .filter(|(name, _)| is_wanted(name))
        .map(|&(name, build)| Workload::new(name, build()))
        .collect()
}

/// The one that goes by this name.
pub fn by_name(name: &str) -> Option<Workload> {
    let &(name, build) = BUILDERS.iter().find(|(other, _)| *other == name)?;
    Some(Workload::new(name, build()))
}

type Builder = (&'static str, fn() -> Vec<u8>);

/// The two sizes of the same day, by which growth is told.
pub const SMALL_DAY: &str = "day-100k";
pub const LARGE_DAY: &str = "million";

const BUILDERS: [Builder; 10] = [
    ("mixed", || mixed::day(ORDINARY, Ranking::Time)),
    ("mixed-size", || mixed::day(ORDINARY, Ranking::Size)),
    ("brief", || brief::day(100_000)),
    ("full", || full::day(ORDINARY, Ranking::Time)),
    ("full-size", || full::day(ORDINARY, Ranking::Size)),
    ("rfe", || rfe::day(ORDINARY, Ranking::Time)),
    ("rfe-size", || rfe::day(ORDINARY, Ranking::Size)),
    ("unreadable", || unreadable::day(100_000)),
    (SMALL_DAY, || mixed::day(100_000, Ranking::Time)),
    (LARGE_DAY, || mixed::day(1_000_000, Ranking::Time)),
];

#[cfg(test)]
mod tests {
    use super::*;
    use crate::tuned::key_of;

    fn count(written: &[u8], letter: u8) -> usize {
        written
            .chunks_exact(40)
            .filter(|record| record[0] == letter)
            .count()
    }

    #[test]
    fn ordinary_days_hold_some_of_everything() {
        let mut written = Vec::new();
        key_of(&mixed::day(20_000, Ranking::Time), &mut written);
        for letter in [b'T', b'G', b'A', b'N', b'Z'] {
            assert!(count(&written, letter) > 0, "{}", letter as char);
        }
    }

    #[test]
    fn a_brief_order_writes_two_records() {
        let mut written = Vec::new();
        key_of(&brief::day(1_000), &mut written);
        assert_eq!(count(&written, b'G'), 1_000);
        assert_eq!(count(&written, b'T') + count(&written, b'N'), 0);
    }

    #[test]
    fn unreadable_records_are_all_refused() {
        let mut written = Vec::new();
        key_of(&unreadable::day(1_000), &mut written);
        assert_eq!(count(&written, b'N'), 1_000);
    }
}
