//! Slips: what happened in a call (RULES.md, section 10).

#[derive(Clone, Copy, Debug, PartialEq, Eq)]
pub enum Cause {
    Cancelled,
    OutsideGoverningQuote,
    ExecuteAndCancel,
    BeyondLimit2,
}

impl Cause {
    pub fn number(self) -> u64 {
        match self {
            Cause::Cancelled => 1,
            Cause::OutsideGoverningQuote => 2,
            Cause::ExecuteAndCancel => 3,
            Cause::BeyondLimit2 => 4,
        }
    }
}

#[derive(Clone, Copy, Debug, PartialEq, Eq)]
pub enum Slip {
    /// A party that is the quote has the ticket 0 here.
    Trade {
        price: u64,
        pieces: u64,
        buying_ticket: u64,
        selling_ticket: u64,
    },
    Out {
        cause: Cause,
        ticket: u64,
        pieces: u64,
    },
}
