//! Ticks, limits and allowed pieces. What depends on the reference alone is worked out at open.

use super::quote::Terms;
use super::refusal::{self, Refusal};

pub const PRICE_MAX: u32 = 99_999_999;
const PIECES_MAX: u32 = 10_000_000;
const POINTS: u64 = 10_000;

/// The two sheets that a record can name.
#[derive(Clone, Copy)]
pub enum Sheet {
    Leveraged,
    Investment,
}

/// Bound, Limit 1, Limit 2 leveraged, Limit 2 investment.
const BANDS: [(u32, u32, u32, u32); 9] = [
    (50, 2000, 800, 400),
    (1_000, 600, 300, 150),
    (10_000, 300, 150, 75),
    (30_000, 200, 100, 50),
    (300_000, 100, 50, 25),
    (700_000, 60, 20, 10),
    (900_000, 30, 12, 6),
    (3_000_000, 20, 10, 5),
    (u32::MAX, 15, 6, 3),
];

/// Prices from `low` to `high`, both included.
#[derive(Clone, Copy)]
pub struct Range {
    pub low: u32,
    pub high: u32,
}

impl Range {
    /// The prices within `percent` around `base`.
    fn around(base: u32, percent: u32) -> Self {
        let reach = u64::from(percent) * u64::from(base) / 100;
        Range {
            low: u64::from(base).saturating_sub(reach).max(1) as u32,
            high: (u64::from(base) + reach).min(u64::from(PRICE_MAX)) as u32,
        }
    }

    #[inline(always)]
    pub fn holds(&self, price: u32) -> bool {
        price.wrapping_sub(self.low) <= self.high - self.low
    }
}

/// The figures of a day.
#[derive(Clone, Copy)]
pub struct Figures {
    reference: u32,
    turnover: u64,
    second_percent: u32,
    first: Range,
}

impl Figures {
    pub fn new(sheet: Sheet, reference: u32) -> Self {
        let (_, first, leveraged, investment) = *BANDS
            .iter()
            .find(|band| reference <= band.0)
            .unwrap_or(&BANDS[8]);
        let (second_percent, turnover) = match sheet {
            Sheet::Leveraged => (leveraged, 5_000_000),
            Sheet::Investment => (investment, 10_000_000),
        };
        Figures {
            reference,
            turnover: turnover * POINTS,
            second_percent,
            first: Range::around(reference, first),
        }
    }

    /// The prices that orders can have.
    pub fn prices(&self) -> Range {
        self.first
    }

    /// No order has more pieces than this.
    pub fn most_pieces(&self) -> u32 {
        (self.turnover / u64::from(self.reference)).min(u64::from(PIECES_MAX)) as u32
    }

    /// The prices within Limit 2 of the dynamic price.
    pub fn second_limit(&self, dynamic: u32) -> Range {
        Range::around(dynamic, self.second_percent)
    }

    #[inline(always)]
    pub fn price_good(&self, price: u32) -> bool {
        self.first.holds(price) & on_tick(price)
    }

    #[inline(always)]
    pub fn pieces_good(&self, pieces: u32, price: u32) -> bool {
        let dearest = u64::from(price.max(self.reference));
        (pieces.wrapping_sub(1) < PIECES_MAX) & (u64::from(pieces) * dearest <= self.turnover)
    }

    /// The first test that an order fails, if it fails one.
    pub fn order_refusal(&self, price: u32, pieces: u32) -> Option<&'static Refusal> {
        if !price_stands(price) {
            Some(&refusal::PRICE)
        } else if !self.first.holds(price) {
            Some(&refusal::PRICE_LIMIT)
        } else if !self.pieces_good(pieces, price) {
            Some(&refusal::PIECES)
        } else {
            None
        }
    }

    #[inline(always)]
    pub fn terms_good(&self, terms: &Terms) -> bool {
        self.price_good(terms.bid)
            & self.price_good(terms.ask)
            & (terms.bid < terms.ask)
            & self.pieces_good(terms.bid_pieces, terms.bid)
            & self.pieces_good(terms.ask_pieces, terms.ask)
    }

    /// The first test that a quote fails, if it fails one.
    pub fn terms_refusal(&self, terms: &Terms) -> Option<&'static Refusal> {
        if !price_stands(terms.bid) {
            Some(&refusal::PRICE)
        } else if !price_stands(terms.ask) {
            Some(&refusal::ASK)
        } else if terms.bid >= terms.ask {
            Some(&refusal::SPREAD)
        } else if !self.first.holds(terms.bid) {
            Some(&refusal::PRICE_LIMIT)
        } else if !self.first.holds(terms.ask) {
            Some(&refusal::ASK_LIMIT)
        } else if !self.pieces_good(terms.bid_pieces, terms.bid) {
            Some(&refusal::PIECES)
        } else if !self.pieces_good(terms.ask_pieces, terms.ask) {
            Some(&refusal::ASK_PIECES)
        } else {
            None
        }
    }
}

fn price_stands(price: u32) -> bool {
    price != 0 && on_tick(price)
}

/// Most prices are in the highest band, so it is asked for first.
#[inline(always)]
fn on_tick(price: u32) -> bool {
    match price {
        30_001.. => price.is_multiple_of(100),
        10_001.. => price.is_multiple_of(50),
        1_001.. => price.is_multiple_of(10),
        51.. => price.is_multiple_of(5),
        _ => true,
    }
}

#[cfg(test)]
mod tests {
    use super::*;

    #[test]
    fn ticks_go_by_the_price() {
        let cases = [
            (50, true),
            (51, false),
            (55, true),
            (1_000, true),
            (1_005, false),
            (1_010, true),
        ];
        for (price, good) in cases {
            assert_eq!(on_tick(price), good, "{price}");
        }
    }

    #[test]
    fn limits_hold_at_their_edge() {
        let figures = Figures::new(Sheet::Leveraged, 100_000);
        assert!(figures.price_good(200_000));
        assert!(!figures.price_good(200_100));
        let second = figures.second_limit(100_000);
        assert!(second.holds(150_000) && !second.holds(150_100));
    }

    #[test]
    fn pieces_go_up_to_the_turnover() {
        let figures = Figures::new(Sheet::Leveraged, 100_000);
        assert!(figures.pieces_good(500_000, 100_000));
        assert!(!figures.pieces_good(500_001, 100_000));
        assert!(!figures.pieces_good(0, 100_000));
    }
}
