//! Proposals and the two rankings (RULES.md, section 6).

use super::order::{Order, Side};
use super::quote::Quote;

/// Who stands behind a proposal.
#[derive(Clone, Copy, Debug, PartialEq, Eq)]
pub enum Party {
    Quote,
    Order,
}

/// What can be ranked: an order, or one side of the quote.
#[derive(Clone, Copy, Debug, PartialEq, Eq)]
pub struct Proposal {
    pub party: Party,
    pub side: Side,
    pub price: u64,
    pub left: u64,
    pub number: u64,
}

impl Proposal {
    pub fn of_order(order: &Order) -> Proposal {
        Proposal {
            party: Party::Order,
            side: order.side,
            price: order.price,
            left: order.left,
            number: order.ticket,
        }
    }

    pub fn of_quote(quote: &Quote, side: Side) -> Proposal {
        Proposal {
            party: Party::Quote,
            side,
            price: quote.price(side),
            left: quote.left(side),
            number: quote.number,
        }
    }
}

#[derive(Clone, Copy, Debug, PartialEq, Eq)]
pub enum Ranking {
    ByTime,
    BySize,
}

impl Ranking {
    /// Whether the first of two proposals of one side ranks ahead of the second.
    pub fn is_ahead(self, first: &Proposal, second: &Proposal) -> bool {
        if first.price != second.price {
            return first.side.is_better(first.price, second.price);
        }
        if self == Ranking::BySize && first.left != second.left {
            return first.left > second.left;
        }
        first.number < second.number
    }

    /// The one proposal that ranks ahead of all others, if there is any proposal.
    pub fn first_ranked(self, proposals: Vec<Proposal>) -> Option<Proposal> {
        let mut first: Option<Proposal> = None;
        for proposal in proposals {
            match first {
                Some(best) if !self.is_ahead(&proposal, &best) => {}
                _ => first = Some(proposal),
            }
        }
        first
    }
}

#[cfg(test)]
mod tests {
    use super::*;

    fn sell(price: u64, left: u64, number: u64) -> Proposal {
        Proposal {
            party: Party::Order,
            side: Side::Sell,
            price,
            left,
            number,
        }
    }

    #[test]
    fn a_better_price_ranks_ahead_in_both() {
        for ranking in [Ranking::ByTime, Ranking::BySize] {
            assert!(ranking.is_ahead(&sell(90, 1, 9), &sell(95, 100, 1)));
        }
    }

    #[test]
    fn size_counts_only_by_size() {
        let few_but_early = sell(90, 1, 1);
        let many_but_late = sell(90, 2, 2);
        assert!(Ranking::ByTime.is_ahead(&few_but_early, &many_but_late));
        assert!(Ranking::BySize.is_ahead(&many_but_late, &few_but_early));
    }

    #[test]
    fn the_number_decides_last() {
        assert!(Ranking::BySize.is_ahead(&sell(90, 1, 1), &sell(90, 1, 2)));
    }
}
