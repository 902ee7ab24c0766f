//! The Specialist's quote (RULES.md, section 6).

use super::order::Side;

/// What a call says of a quote: all but its number.
#[derive(Clone, Copy, Debug, PartialEq, Eq)]
pub struct QuoteTerms {
    pub bid: u64,
    pub bid_pieces: u64,
    pub ask: u64,
    pub ask_pieces: u64,
    pub flagged: bool,
}

#[derive(Clone, Copy, Debug, PartialEq, Eq)]
pub struct Quote {
    pub number: u64,
    pub bid: u64,
    pub bid_left: u64,
    pub ask: u64,
    pub ask_left: u64,
    pub flagged: bool,
}

impl Quote {
    pub fn new(number: u64, terms: QuoteTerms) -> Quote {
        Quote {
            number,
            bid: terms.bid,
            bid_left: terms.bid_pieces,
            ask: terms.ask,
            ask_left: terms.ask_pieces,
            flagged: terms.flagged,
        }
    }

    pub fn price(&self, side: Side) -> u64 {
        match side {
            Side::Buy => self.bid,
            Side::Sell => self.ask,
        }
    }

    pub fn left(&self, side: Side) -> u64 {
        match side {
            Side::Buy => self.bid_left,
            Side::Sell => self.ask_left,
        }
    }

    pub fn lower(&mut self, side: Side, pieces: u64) {
        match side {
            Side::Buy => self.bid_left -= pieces,
            Side::Sell => self.ask_left -= pieces,
        }
    }

    /// Whether a price lies from bid to ask, both included.
    pub fn spans(&self, price: u64) -> bool {
        self.bid <= price && price <= self.ask
    }

    pub fn middle(&self) -> u64 {
        (self.bid + self.ask) / 2
    }
}
