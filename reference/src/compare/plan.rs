//! What a comparison goes by: inputs and judge.

use crate::generate;

/// What an output must agree with.
#[derive(Clone, Copy, Debug, PartialEq, Eq)]
pub enum Judge {
    SecondEngineAndLaws,
    LawsAlone,
}

/// Which inputs to compare on, and by what.
#[derive(Clone, Copy, Debug, PartialEq, Eq)]
pub struct Plan {
    /// The first seed.
    pub from: u64,
    /// How many inputs of random days, each with a seed of its own.
    pub seeds: u64,
    /// Records in each input of random days.
    pub records: usize,
    pub judge: Judge,
}

impl Default for Plan {
    fn default() -> Plan {
        Plan {
            from: 0,
            seeds: 126,
            records: 4_000,
            judge: Judge::SecondEngineAndLaws,
        }
    }
}

#[derive(Debug)]
pub struct Input {
    pub name: String,
    pub bytes: Vec<u8>,
}

/// A name, and what makes the input.
type Special = (&'static str, fn() -> Vec<u8>);

const SPECIAL: [Special; 3] = [
    ("empty", Vec::new),
    ("most-slips", generate::most_slips),
    ("used-up", generate::used_up),
];

impl Plan {
    /// One input after the other; the longest comes last.
    pub fn inputs(self) -> impl Iterator<Item = Input> {
        let seeds = self.from..self.from + self.seeds;
        let random = seeds.map(move |seed| Input {
            name: format!("days-{seed}-{}", generate::mood_name(seed)),
            bytes: generate::days(seed, self.records),
        });
        random.chain(SPECIAL.into_iter().map(|(name, make)| Input {
            name: name.to_string(),
            bytes: make(),
        }))
    }
}
