//! What the checker has seen happen, for counting.

use super::edges::{Edge, Reason};
use super::refusals::Refusal;
use crate::transcript::Flaw;
use std::fmt;

/// The part of a call in which something happened.
#[derive(Clone, Copy, Debug, PartialEq, Eq, PartialOrd, Ord)]
pub enum Part {
    BeforeCross,
    StepA,
    StepB,
    Tail,
    TailAfterHalt,
}

/// Who traded with whom.
#[derive(Clone, Copy, Debug, PartialEq, Eq, PartialOrd, Ord)]
pub enum Parties {
    QuoteBuys,
    QuoteSells,
    Orders,
}

/// What an accepted call does. A close moves from the phase that it ends to none.
#[derive(Clone, Copy, Debug, PartialEq, Eq, PartialOrd, Ord)]
pub enum Event {
    Moves { from: char, to: char },
    Trades { part: Part, parties: Parties },
    PutsOut { cause: u64, part: Part },
}

impl fmt::Display for Event {
    fn fmt(&self, f: &mut fmt::Formatter) -> fmt::Result {
        match self {
            Event::Moves { from, to } => write!(f, "from phase {from} to {to}"),
            Event::Trades { part, parties } => write!(f, "trade in {part:?}: {parties:?}"),
            Event::PutsOut { cause, part } => write!(f, "out, cause {cause} in {part:?}"),
        }
    }
}

/// What few calls bring about.
#[derive(Clone, Copy, Debug, PartialEq, Eq, PartialOrd, Ord)]
pub enum Rare {
    RfeOpenedAfterTradesOfTheSameCall,
    RfeGoesOnWithoutItsOpener,
    RfeEndsWithManyWaitingOnBothSides,
    ValidatedWithOtherPrices,
    AllPlacesTaken,
    LongestSlipList,
}

/// Letters of records and phases are kept as they are written; `-` is no open day.
#[derive(Clone, Copy, Debug, PartialEq, Eq, PartialOrd, Ord)]
pub enum Sight {
    Opened {
        sheet: char,
        ranking: u64,
    },
    ReferenceRow {
        sheet: char,
        row: usize,
    },
    Unreadable(Flaw),
    Refused {
        letter: char,
        refusal: Refusal,
        phase: char,
    },
    RefusedFor(Reason),
    /// A refused call that fails a later test too: only the first is told.
    TestedBefore {
        letter: char,
        first: Refusal,
        later: Refusal,
    },
    AtEdge(Edge),
    Call {
        letter: char,
        event: Event,
    },
    Rare(Rare),
    InputEnded {
        phase: char,
    },
}

impl fmt::Display for Sight {
    fn fmt(&self, f: &mut fmt::Formatter) -> fmt::Result {
        match self {
            Sight::Opened { sheet, ranking } => {
                write!(f, "day on sheet {sheet}, ranking {ranking}")
            }
            Sight::ReferenceRow { sheet, row } => {
                write!(f, "reference in row {row}, sheet {sheet}")
            }
            Sight::Unreadable(flaw) => write!(f, "unreadable: {flaw}"),
            Sight::Refused {
                letter,
                refusal,
                phase,
            } => {
                write!(f, "{letter} refused {refusal} in phase {phase}")
            }
            Sight::RefusedFor(reason) => write!(f, "refused for {reason:?}"),
            Sight::TestedBefore {
                letter,
                first,
                later,
            } => {
                write!(f, "{letter} refused {first} before {later}")
            }
            Sight::AtEdge(edge) => write!(f, "at the edge: {edge:?}"),
            Sight::Call { letter, event } => write!(f, "{letter} {event}"),
            Sight::Rare(rare) => write!(f, "{rare:?}"),
            Sight::InputEnded { phase } => write!(f, "input ended in phase {phase}"),
        }
    }
}
