//! What stands, kept from the records alone.

use super::figures::{self, Limits};

#[derive(Clone, Copy, Debug, PartialEq, Eq)]
pub enum Phase {
    Dark,
    Lit,
    Asking { opening: u64, due: u64 },
    Halted { over: u64 },
}

impl Phase {
    pub fn letter(self) -> char {
        match self {
            Phase::Dark => 'D',
            Phase::Lit => 'L',
            Phase::Asking { .. } => 'R',
            Phase::Halted { .. } => 'H',
        }
    }

    pub fn opening_ticket(self) -> Option<u64> {
        match self {
            Phase::Asking { opening, .. } => Some(opening),
            Phase::Dark | Phase::Lit | Phase::Halted { .. } => None,
        }
    }
}

#[derive(Clone, Copy, Debug)]
pub struct StandingOrder {
    pub ticket: u64,
    pub sender: u64,
    pub buys: bool,
    pub price: u64,
    pub left: u64,
    pub execute_and_cancel: bool,
}

#[derive(Clone, Copy, Debug)]
pub struct StandingQuote {
    pub number: u64,
    pub bid: u64,
    pub bid_left: u64,
    pub ask: u64,
    pub ask_left: u64,
    pub flagged: bool,
}

impl StandingQuote {
    pub fn is_reached_by(&self, order: &StandingOrder) -> bool {
        if order.buys {
            self.ask <= order.price
        } else {
            order.price <= self.bid
        }
    }
}

pub struct Standing {
    pub is_investment: bool,
    pub is_by_size: bool,
    pub reference: u64,
    pub reply_time: u64,
    pub clock: u64,
    pub dynamic: u64,
    pub phase: Phase,
    pub quote: Option<StandingQuote>,
    pub orders: Vec<StandingOrder>,
    pub numbers_given: u64,
    pub accepted: u64,
    pub done: u64,
    pub out: u64,
    /// From a halt until a quote is accepted again: orders may then stand crossed.
    pub may_be_crossed: bool,
}

impl Standing {
    pub fn limits(&self) -> Limits {
        figures::limits(self.is_investment, self.reference)
    }

    pub fn is_within_limit_2(&self, price: u64) -> bool {
        figures::is_within(price, self.limits().limit_2, self.dynamic)
    }

    pub fn order(&self, ticket: u64) -> Option<&StandingOrder> {
        self.orders.iter().find(|order| order.ticket == ticket)
    }

    pub fn is_quote_reached(&self) -> bool {
        let reached = |quote: StandingQuote| {
            let mut orders = self.orders.iter();
            orders.any(|order| quote.is_reached_by(order))
        };
        self.quote.is_some_and(reached)
    }

    /// Whether some buy has a price at or above that of some sell.
    pub fn is_crossed(&self) -> bool {
        let prices = |buys| {
            let orders = self.orders.iter();
            orders
                .filter(move |order| order.buys == buys)
                .map(|order| order.price)
        };
        match (prices(true).max(), prices(false).min()) {
            (Some(highest_buy), Some(lowest_sell)) => highest_buy >= lowest_sell,
            _ => false,
        }
    }

    /// Takes pieces from an order, and the order away with its last one.
    pub fn lower_order(&mut self, ticket: u64, pieces: u64) {
        for order in &mut self.orders {
            if order.ticket == ticket {
                order.left -= pieces;
            }
        }
        self.orders.retain(|order| order.left > 0);
    }

    /// Takes pieces from a side of the quote, and the quote away with the last one of a side.
    pub fn lower_quote(&mut self, buys: bool, pieces: u64) {
        if let Some(quote) = &mut self.quote {
            let left = if buys {
                &mut quote.bid_left
            } else {
                &mut quote.ask_left
            };
            *left -= pieces;
            if *left == 0 {
                self.quote = None;
            }
        }
    }
}
