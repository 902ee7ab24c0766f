//! How a broken law is told.

use std::fmt;

#[derive(Clone, Copy, Debug, PartialEq, Eq)]
pub enum Law {
    Form,
    Ledger,
    Numbers,
    Prices,
    Rank,
    Causes,
    Tail,
    Quiet,
    Phases,
    Answers,
    Refusals,
    Report,
}

/// A law that does not hold, before it is known at which record.
#[derive(Clone, Debug, PartialEq, Eq)]
pub struct Fault {
    pub law: Law,
    pub what: String,
}

/// A law that does not hold.
#[derive(Clone, Debug, PartialEq, Eq)]
pub struct Broken {
    /// The record read, counted from 0; the end of the input counts as one more.
    pub record: usize,
    pub law: Law,
    pub what: String,
}

impl Fault {
    pub fn at(self, record: usize) -> Broken {
        Broken {
            record,
            law: self.law,
            what: self.what,
        }
    }
}

impl fmt::Display for Broken {
    fn fmt(&self, formatter: &mut fmt::Formatter) -> fmt::Result {
        let Broken { record, law, what } = self;
        write!(formatter, "record read {record}: law {law:?}: {what}")
    }
}

/// A fault unless the law holds.
pub fn ensure(holds: bool, law: Law, what: impl Fn() -> String) -> Result<(), Fault> {
    if holds {
        Ok(())
    } else {
        Err(Fault { law, what: what() })
    }
}
