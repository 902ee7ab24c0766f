//! The cross: step A, step B and the tail (RULES.md, sections 8 and 9).

use super::book::{Book, Phase, Rfe, HALT_SECONDS};
use super::order::{Kind, Order, Side};
use super::quote::Quote;
use super::ranking::{Party, Proposal};
use super::slip::{Cause, Slip};

/// How a step ends.
enum Ending {
    NothingLeft,
    RfeOpens(Rfe),
    Halts,
}

struct Cross<'a> {
    book: &'a mut Book,
    /// Keeps its bid and ask for the whole cross, also if the standing quote goes.
    governing: Quote,
    /// The opening ticket of the RFE that this cross ends: orders from it up are waiting.
    waiting_from: Option<u64>,
    from_enter: bool,
    slips: Vec<Slip>,
}

/// The cross of an enter, the only one that may open an RFE.
pub fn cross_of_enter(book: &mut Book, governing: Quote) -> Vec<Slip> {
    let mut cross = Cross::new(book, governing, None);
    cross.from_enter = true;
    cross.run()
}

/// The cross of a new or validated quote, or of a cancel that ends an RFE.
pub fn cross_with_quote(book: &mut Book, governing: Quote, ended: Option<Rfe>) -> Vec<Slip> {
    Cross::new(book, governing, ended).run()
}

/// The cross after an RFE whose quote has been removed: no step A.
pub fn cross_without_quote(book: &mut Book, removed: Quote, ended: Rfe) -> Vec<Slip> {
    book.quote = None;
    cross_with_quote(book, removed, Some(ended))
}

impl<'a> Cross<'a> {
    fn new(book: &'a mut Book, governing: Quote, ended: Option<Rfe>) -> Cross<'a> {
        Cross {
            book,
            governing,
            waiting_from: ended.map(|rfe| rfe.opening_ticket),
            from_enter: false,
            slips: Vec::new(),
        }
    }

    fn run(mut self) -> Vec<Slip> {
        let ending = match self.step_a() {
            Ending::NothingLeft => self.step_b(),
            over => over,
        };
        let is_over_at_once = matches!(ending, Ending::RfeOpens(_));
        if !is_over_at_once {
            self.tail();
        }
        self.book.phase = self.phase_after(ending);
        self.slips
    }

    fn phase_after(&self, ending: Ending) -> Phase {
        match (ending, self.book.quote) {
            (Ending::RfeOpens(rfe), _) => Phase::InRfe(rfe),
            (Ending::Halts, _) => Phase::Halted {
                over: self.book.clock + HALT_SECONDS,
            },
            (Ending::NothingLeft, Some(_)) => Phase::Lit,
            (Ending::NothingLeft, None) => Phase::Dark,
        }
    }

    /// Orders against the quote.
    fn step_a(&mut self) -> Ending {
        // A1: without a quote there is nothing to do here.
        while let Some(quote) = self.book.quote {
            // A2, A3
            let Some(taker) = self.taker(&quote) else {
                break;
            };
            let partner = self.partner(&taker, &quote);
            // A4: before any test of the price.
            if partner.party == Party::Quote && quote.flagged && self.from_enter {
                return Ending::RfeOpens(Rfe {
                    opening_ticket: taker.number,
                    due: self.book.clock + self.book.reply_time,
                });
            }
            // A5
            if !self.book.is_within_limit_2(partner.price) {
                return self.halt(taker.number);
            }
            // A6, A7
            self.trade(partner.price, taker, partner);
        }
        Ending::NothingLeft
    }

    /// Orders against orders.
    fn step_b(&mut self) -> Ending {
        // B1
        while let Some((buy, sell)) = self.pair() {
            // B2
            let (lower, higher) = if buy.number < sell.number {
                (buy, sell)
            } else {
                (sell, buy)
            };
            let price = lower.price;
            // B3, then B4, then B5
            if !self.governing.spans(price) {
                self.put_out(higher.number, Cause::OutsideGoverningQuote);
            } else if !self.book.is_within_limit_2(price) {
                return self.halt(higher.number);
            } else {
                self.trade(price, buy, sell);
            }
        }
        Ending::NothingLeft
    }

    /// Execute-and-cancel orders go out, the lowest ticket first.
    fn tail(&mut self) {
        let orders = self.book.orders.iter();
        let mut tickets: Vec<u64> = orders
            .filter(|order| order.kind == Kind::ExecuteAndCancel)
            .map(|order| order.ticket)
            .collect();
        tickets.sort();
        for ticket in tickets {
            self.put_out(ticket, Cause::ExecuteAndCancel);
        }
    }

    /// The first-ranked buy that reaches the quote, or else the first-ranked sell that does.
    fn taker(&self, quote: &Quote) -> Option<Proposal> {
        let ranking = self.book.ranking;
        let reaching = |side| self.book.proposals(side, |order| order.reaches(quote));
        ranking
            .first_ranked(reaching(Side::Buy))
            .or_else(|| ranking.first_ranked(reaching(Side::Sell)))
    }

    /// The first-ranked of the quote's opposite side and the settled orders within the quote.
    fn partner(&self, taker: &Proposal, quote: &Quote) -> Proposal {
        let side = taker.side.opposite();
        let is_partner = |order: &Order| self.is_settled(order) && quote.spans(order.price);
        let mut partners = self.book.proposals(side, is_partner);
        partners.push(Proposal::of_quote(quote, side));
        self.book
            .ranking
            .first_ranked(partners)
            .expect("the quote itself is among them")
    }

    fn is_settled(&self, order: &Order) -> bool {
        match self.waiting_from {
            Some(opening_ticket) => order.ticket < opening_ticket,
            None => true,
        }
    }

    /// The first-ranked buy and sell of all orders, if the buy's price is not below the sell's.
    fn pair(&self) -> Option<(Proposal, Proposal)> {
        let ranking = self.book.ranking;
        let first = |side| ranking.first_ranked(self.book.proposals(side, |_| true));
        let buy = first(Side::Buy)?;
        let sell = first(Side::Sell)?;
        (buy.price >= sell.price).then_some((buy, sell))
    }

    fn put_out(&mut self, ticket: u64, cause: Cause) {
        let slip = self.book.put_out(ticket, cause);
        self.slips.push(slip);
    }

    fn halt(&mut self, ticket: u64) -> Ending {
        self.put_out(ticket, Cause::BeyondLimit2);
        self.book.quote = None;
        Ending::Halts
    }

    fn trade(&mut self, price: u64, one: Proposal, other: Proposal) {
        let pieces = one.left.min(other.left);
        let ticket_on = |side| {
            let proposal = if one.side == side { one } else { other };
            match proposal.party {
                Party::Quote => 0,
                Party::Order => proposal.number,
            }
        };
        self.slips.push(Slip::Trade {
            price,
            pieces,
            buying_ticket: ticket_on(Side::Buy),
            selling_ticket: ticket_on(Side::Sell),
        });
        self.lower(one, pieces);
        self.lower(other, pieces);
    }

    fn lower(&mut self, proposal: Proposal, pieces: u64) {
        match proposal.party {
            Party::Order => self.book.lower_order(proposal.number, pieces),
            Party::Quote => self.lower_quote(proposal.side, pieces),
        }
    }

    /// With one side used up the whole quote goes.
    fn lower_quote(&mut self, side: Side, pieces: u64) {
        if let Some(quote) = &mut self.book.quote {
            quote.lower(side, pieces);
            if quote.left(side) == 0 {
                self.book.quote = None;
            }
        }
    }
}
