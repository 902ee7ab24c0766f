//! Orders and what they reach (RULES.md, section 6).

use super::quote::Quote;

#[derive(Clone, Copy, Debug, PartialEq, Eq)]
pub enum Side {
    Buy,
    Sell,
}

impl Side {
    pub fn opposite(self) -> Side {
        match self {
            Side::Buy => Side::Sell,
            Side::Sell => Side::Buy,
        }
    }

    /// For a buy the higher price is better, for a sell the lower.
    pub fn is_better(self, price: u64, other: u64) -> bool {
        match self {
            Side::Buy => price > other,
            Side::Sell => price < other,
        }
    }
}

#[derive(Clone, Copy, Debug, PartialEq, Eq)]
pub enum Kind {
    Plain,
    ExecuteAndCancel,
}

#[derive(Clone, Copy, Debug, PartialEq, Eq)]
pub struct Order {
    pub ticket: u64,
    pub sender: u64,
    pub side: Side,
    pub price: u64,
    pub left: u64,
    pub kind: Kind,
}

impl Order {
    pub fn reaches(&self, quote: &Quote) -> bool {
        match self.side {
            Side::Buy => self.price >= quote.ask,
            Side::Sell => self.price <= quote.bid,
        }
    }
}
