//! The book of one day: what stands, the phase, the count of numbers (RULES.md, sections 6 and 7).

use super::figures;
use super::order::{Order, Side};
use super::quote::Quote;
use super::ranking::{Proposal, Ranking};
use super::refusal::Refusal;
use super::report::Totals;
use super::sheet::Sheet;
use super::slip::{Cause, Slip};

pub const PLACES: usize = 128;
pub const LAST_NUMBER: u64 = 1_000_000;
pub const HALT_SECONDS: u64 = 120;

/// An open request for execution.
#[derive(Clone, Copy, Debug, PartialEq, Eq)]
pub struct Rfe {
    pub opening_ticket: u64,
    pub due: u64,
}

#[derive(Clone, Copy, Debug, PartialEq, Eq)]
pub enum Phase {
    Dark,
    Lit,
    InRfe(Rfe),
    Halted { over: u64 },
}

pub struct Book {
    pub sheet: Sheet,
    pub ranking: Ranking,
    pub reference: u64,
    pub reply_time: u64,
    pub clock: u64,
    pub dynamic_price: u64,
    pub phase: Phase,
    /// Stands exactly while the phase is lit or in RFE.
    pub quote: Option<Quote>,
    pub orders: Vec<Order>,
    pub last_number: u64,
    pub totals: Totals,
}

impl Book {
    pub fn next_number(&mut self) -> Result<u64, Refusal> {
        if self.last_number == LAST_NUMBER {
            return Err(Refusal::NumbersUsedUp);
        }
        self.last_number += 1;
        Ok(self.last_number)
    }

    pub fn rfe(&self) -> Option<Rfe> {
        match self.phase {
            Phase::InRfe(rfe) => Some(rfe),
            Phase::Dark | Phase::Lit | Phase::Halted { .. } => None,
        }
    }

    pub fn is_within_limit_2(&self, price: u64) -> bool {
        let percent = self.sheet.limit_2(self.reference);
        figures::is_within(price, percent, self.dynamic_price)
    }

    /// The proposals of all standing orders of a side that pass a test.
    pub fn proposals(&self, side: Side, passes: impl Fn(&Order) -> bool) -> Vec<Proposal> {
        let of_side = self.orders.iter().filter(|order| order.side == side);
        of_side
            .filter(|order| passes(order))
            .map(Proposal::of_order)
            .collect()
    }

    /// An order leaves the book with all it has left.
    pub fn put_out(&mut self, ticket: u64, cause: Cause) -> Slip {
        let place = self.place_of(ticket);
        let order = self.orders.remove(place);
        self.totals.out += order.left;
        Slip::Out {
            cause,
            ticket,
            pieces: order.left,
        }
    }

    /// An order has traded; with no pieces left it is gone.
    pub fn lower_order(&mut self, ticket: u64, pieces: u64) {
        let place = self.place_of(ticket);
        self.orders[place].left -= pieces;
        self.totals.done += pieces;
        if self.orders[place].left == 0 {
            self.orders.remove(place);
        }
    }

    fn place_of(&self, ticket: u64) -> usize {
        self.orders
            .iter()
            .position(|order| order.ticket == ticket)
            .expect("only standing orders are named here")
    }
}
