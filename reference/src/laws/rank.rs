//! Which proposals are open, and which of them ranks first (RULES.md, section 15, "Rank").

use super::standing::{Standing, StandingOrder, StandingQuote};
use std::cmp::Reverse;
use std::fmt;

#[derive(Clone, Copy, Debug, PartialEq, Eq)]
pub struct Proposal {
    pub is_quote: bool,
    pub number: u64,
    pub price: u64,
    pub left: u64,
}

impl Proposal {
    /// The ticket by which a trade slip names the party.
    pub fn named(&self) -> u64 {
        if self.is_quote {
            0
        } else {
            self.number
        }
    }
}

impl fmt::Display for Proposal {
    fn fmt(&self, formatter: &mut fmt::Formatter) -> fmt::Result {
        let party = if self.is_quote { "quote" } else { "order" };
        let Proposal {
            number,
            price,
            left,
            ..
        } = self;
        write!(formatter, "{party} {number} at {price} with {left} left")
    }
}

/// A proposal in words, if there is one.
pub fn in_words(proposal: Option<Proposal>) -> String {
    proposal.map_or("none".to_string(), |proposal| proposal.to_string())
}

/// Which orders reach the quote that stands.
#[derive(Clone, Copy, Debug, PartialEq, Eq)]
pub enum ReachedBy {
    Buys,
    Sells,
    None,
}

/// The open proposal that ranks first on each side.
pub struct FirstRanked {
    pub reached: ReachedBy,
    pub buy: Option<Proposal>,
    pub sell: Option<Proposal>,
}

impl FirstRanked {
    /// Orders from the opening ticket of an RFE that ends are waiting.
    pub fn of(standing: &Standing, waiting_from: Option<u64>) -> FirstRanked {
        let reached = reached(standing);
        let (buys, sells) = match (reached, standing.quote) {
            (ReachedBy::Buys, Some(quote)) => (
                all(standing, true),
                partners(standing, quote, false, waiting_from),
            ),
            (ReachedBy::Sells, Some(quote)) => (
                partners(standing, quote, true, waiting_from),
                all(standing, false),
            ),
            _ => (all(standing, true), all(standing, false)),
        };
        FirstRanked {
            reached,
            buy: first(buys, true, standing.is_by_size),
            sell: first(sells, false, standing.is_by_size),
        }
    }
}

fn reached(standing: &Standing) -> ReachedBy {
    let Some(quote) = standing.quote else {
        return ReachedBy::None;
    };
    let by = |buys| {
        let mut orders = standing.orders.iter();
        orders.any(|order| order.buys == buys && quote.is_reached_by(order))
    };
    if by(true) {
        ReachedBy::Buys
    } else if by(false) {
        ReachedBy::Sells
    } else {
        ReachedBy::None
    }
}

fn of_order(order: &StandingOrder) -> Proposal {
    Proposal {
        is_quote: false,
        number: order.ticket,
        price: order.price,
        left: order.left,
    }
}

fn all(standing: &Standing, buys: bool) -> Vec<Proposal> {
    let orders = standing.orders.iter();
    orders
        .filter(|order| order.buys == buys)
        .map(of_order)
        .collect()
}

/// A side of the quote, and the settled orders of that side from bid to ask.
fn partners(
    standing: &Standing,
    quote: StandingQuote,
    buys: bool,
    waiting_from: Option<u64>,
) -> Vec<Proposal> {
    let (price, left) = if buys {
        (quote.bid, quote.bid_left)
    } else {
        (quote.ask, quote.ask_left)
    };
    let mut open = all(standing, buys);
    open.retain(|proposal| {
        let is_settled = waiting_from.is_none_or(|opening| proposal.number < opening);
        is_settled && (quote.bid..=quote.ask).contains(&proposal.price)
    });
    open.push(Proposal {
        is_quote: true,
        number: quote.number,
        price,
        left,
    });
    open
}

fn first(proposals: Vec<Proposal>, buys: bool, is_by_size: bool) -> Option<Proposal> {
    proposals.into_iter().min_by_key(|proposal| {
        let price = proposal.price as i64;
        let size = if is_by_size { proposal.left } else { 0 };
        (
            if buys { -price } else { price },
            Reverse(size),
            proposal.number,
        )
    })
}
