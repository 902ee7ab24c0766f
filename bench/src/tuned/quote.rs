//! The quote, each side told by its signed price as orders are.

use super::side::{Side, NOWHERE};

/// What a Q or V record tells, in numbers.
#[derive(Clone, Copy)]
pub struct Terms {
    pub bid: u32,
    pub bid_pieces: u32,
    pub ask: u32,
    pub ask_pieces: u32,
}

/// The standing quote. Where none stands, its prices are out of every order's reach.
#[derive(Clone, Copy)]
pub struct Quote {
    /// Bid, and minus the ask.
    pub signed: [i32; 2],
    pub pieces: [u32; 2],
    /// Bid and ask as digits.
    pub raw: [u64; 2],
    pub number: u32,
    /// Its number as digits.
    pub number_raw: u64,
    pub flagged: bool,
}

impl Quote {
    pub const NONE: Quote = Quote {
        signed: [NOWHERE; 2],
        pieces: [0; 2],
        raw: [0; 2],
        number: 0,
        number_raw: 0,
        flagged: false,
    };

    #[inline(always)]
    pub fn stands(&self) -> bool {
        self.signed[0] != NOWHERE
    }

    /// Some order of `side` reaches this quote.
    #[inline(always)]
    pub fn reached_by(&self, sides: &[Side; 2], side: usize) -> bool {
        sides[side].best().signed + self.signed[side ^ 1] >= 0
    }

    /// The bounds that it sets for trades.
    #[inline(always)]
    pub fn bounds(&self) -> Bounds {
        Bounds {
            bid: self.signed[0],
            ask: -self.signed[1],
        }
    }

    pub fn middle(&self) -> u32 {
        let bounds = self.bounds();
        (bounds.bid + bounds.ask) as u32 / 2
    }
}

/// Governing bid and ask.
#[derive(Clone, Copy)]
pub struct Bounds {
    bid: i32,
    ask: i32,
}

impl Bounds {
    #[inline(always)]
    pub fn hold(&self, price: i32) -> bool {
        (self.bid <= price) & (price <= self.ask)
    }
}
