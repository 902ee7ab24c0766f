//! The calls, each with its tests in their order (RULES.md, section 11; REFUSALS.md).
//!
//! Summonses are not kept here: the records carry the right one exactly while an RFE is open.

use super::book::{Book, Phase, PLACES};
use super::cross::{cross_of_enter, cross_with_quote, cross_without_quote};
use super::figures;
use super::order::{Kind, Order, Side};
use super::quote::{Quote, QuoteTerms};
use super::ranking::Ranking;
use super::refusal::{Field, Refusal};
use super::report::Totals;
use super::sheet::Sheet;
use super::slip::{Cause, Slip};

const HIGHEST_SENDER: u64 = 99_999;
const LONGEST_REPLY_TIME: u64 = 60;
const LAST_SECOND: u64 = 86_400;

/// What an accepted call tells. Slips are told before it.
#[derive(Clone, Debug, PartialEq, Eq)]
pub struct Answer {
    pub slips: Vec<Slip>,
    pub phase: Phase,
    pub number: u64,
    pub dynamic_price: u64,
    pub opening_ticket: u64,
}

/// What an enter says of an order: all but its ticket.
#[derive(Clone, Copy, Debug, PartialEq, Eq)]
pub struct OrderTerms {
    pub sender: u64,
    pub side: Side,
    pub price: u64,
    pub pieces: u64,
    pub kind: Kind,
}

/// What an open says of a day.
#[derive(Clone, Copy, Debug, PartialEq, Eq)]
pub struct DayTerms {
    pub sheet: Sheet,
    pub ranking: Ranking,
    pub reference: u64,
    pub reply_time: u64,
}

impl Book {
    pub fn open(terms: DayTerms) -> Result<Book, Refusal> {
        if !figures::is_in_range(terms.reference) {
            return Err(Refusal::Reference);
        }
        if !(1..=LONGEST_REPLY_TIME).contains(&terms.reply_time) {
            return Err(Refusal::ReplyTime);
        }
        Ok(Book {
            sheet: terms.sheet,
            ranking: terms.ranking,
            reference: terms.reference,
            reply_time: terms.reply_time,
            clock: 0,
            dynamic_price: terms.reference,
            phase: Phase::Dark,
            quote: None,
            orders: Vec::new(),
            last_number: 0,
            totals: Totals::default(),
        })
    }

    pub fn enter(&mut self, terms: OrderTerms) -> Result<Answer, Refusal> {
        if !(1..=HIGHEST_SENDER).contains(&terms.sender) {
            return Err(Refusal::Sender);
        }
        match self.phase {
            Phase::Halted { .. } => return Err(Refusal::BookHalted),
            Phase::Dark => return Err(Refusal::BookDark),
            Phase::Lit | Phase::InRfe(_) => {}
        }
        self.test_price(terms.price, Field::PriceOrBid)?;
        self.test_limit_1(terms.price, Field::PriceOrBid)?;
        self.test_pieces(terms.pieces, terms.price, Field::Pieces)?;
        if self.orders.len() == PLACES {
            return Err(Refusal::NoFreePlace);
        }
        let ticket = self.next_number()?;
        self.place(ticket, terms);
        let slips = match (self.phase, self.quote) {
            (Phase::Lit, Some(quote)) => cross_of_enter(self, quote),
            _ => Vec::new(),
        };
        Ok(self.answer(slips, ticket))
    }

    pub fn cancel(&mut self, sender: u64, ticket: u64) -> Result<Answer, Refusal> {
        let is_meant = |order: &Order| order.ticket == ticket && order.sender == sender;
        if !self.orders.iter().any(is_meant) {
            return Err(Refusal::NoSuchOrder);
        }
        let mut slips = vec![self.put_out(ticket, Cause::Cancelled)];
        if let (Some(rfe), Some(quote)) = (self.rfe(), self.quote) {
            let is_reached = self.orders.iter().any(|order| order.reaches(&quote));
            if !is_reached {
                slips.extend(cross_with_quote(self, quote, Some(rfe)));
            }
        }
        Ok(self.answer(slips, 0))
    }

    pub fn quote(&mut self, terms: QuoteTerms) -> Result<Answer, Refusal> {
        match self.phase {
            Phase::Halted { .. } => return Err(Refusal::BookHalted),
            Phase::InRfe(_) => return Err(Refusal::RfeOpen),
            Phase::Dark | Phase::Lit => {}
        }
        self.test_quote(terms)?;
        let number = self.next_number()?;
        let quote = Quote::new(number, terms);
        self.quote = Some(quote);
        let slips = cross_with_quote(self, quote, None);
        Ok(self.answer(slips, number))
    }

    pub fn validate(&mut self, terms: QuoteTerms) -> Result<Answer, Refusal> {
        let (Some(rfe), Some(asked)) = (self.rfe(), self.quote) else {
            return Err(Refusal::NotTheSummons);
        };
        self.test_quote(terms)?;
        let quote = Quote::new(asked.number, terms);
        self.quote = Some(quote);
        let slips = cross_with_quote(self, quote, Some(rfe));
        Ok(self.answer(slips, quote.number))
    }

    pub fn withdraw(&mut self) -> Result<Answer, Refusal> {
        match self.phase {
            Phase::Dark | Phase::Halted { .. } => Err(Refusal::NoQuote),
            Phase::InRfe(_) => Ok(self.end_rfe()),
            Phase::Lit => {
                self.quote = None;
                self.phase = Phase::Dark;
                Ok(self.answer(Vec::new(), 0))
            }
        }
    }

    /// Outside an RFE a decline carries a blank, and alters nothing.
    pub fn decline(&mut self) -> Answer {
        self.end_rfe()
    }

    pub fn clock(&mut self, seconds: u64) -> Result<Answer, Refusal> {
        if seconds < self.clock || seconds > LAST_SECOND {
            return Err(Refusal::Seconds);
        }
        self.clock = seconds;
        match self.phase {
            Phase::InRfe(rfe) if seconds >= rfe.due => return Ok(self.end_rfe()),
            Phase::Halted { over } if seconds >= over => self.phase = Phase::Dark,
            _ => {}
        }
        Ok(self.answer(Vec::new(), 0))
    }

    pub fn renew(&mut self) -> Answer {
        if let Some(quote) = self.quote {
            self.dynamic_price = quote.middle();
        }
        self.answer(Vec::new(), 0)
    }

    /// The quote is removed, and an RFE that is open ends with step B and the tail.
    fn end_rfe(&mut self) -> Answer {
        let slips = match (self.rfe(), self.quote) {
            (Some(rfe), Some(asked)) => cross_without_quote(self, asked, rfe),
            _ => Vec::new(),
        };
        self.answer(slips, 0)
    }

    fn place(&mut self, ticket: u64, terms: OrderTerms) {
        self.totals.accepted += terms.pieces;
        self.orders.push(Order {
            ticket,
            sender: terms.sender,
            side: terms.side,
            price: terms.price,
            left: terms.pieces,
            kind: terms.kind,
        });
    }

    fn answer(&self, slips: Vec<Slip>, number: u64) -> Answer {
        Answer {
            slips,
            phase: self.phase,
            number,
            dynamic_price: self.dynamic_price,
            opening_ticket: self.rfe().map_or(0, |rfe| rfe.opening_ticket),
        }
    }

    fn test_quote(&self, terms: QuoteTerms) -> Result<(), Refusal> {
        self.test_price(terms.bid, Field::PriceOrBid)?;
        self.test_price(terms.ask, Field::Ask)?;
        if terms.bid >= terms.ask {
            return Err(Refusal::BidNotBelowAsk);
        }
        self.test_limit_1(terms.bid, Field::PriceOrBid)?;
        self.test_limit_1(terms.ask, Field::Ask)?;
        self.test_pieces(terms.bid_pieces, terms.bid, Field::Pieces)?;
        self.test_pieces(terms.ask_pieces, terms.ask, Field::AskPieces)
    }

    fn test_price(&self, price: u64, field: Field) -> Result<(), Refusal> {
        if figures::is_in_range(price) && figures::is_on_tick(price) {
            Ok(())
        } else {
            Err(Refusal::Price(field))
        }
    }

    fn test_limit_1(&self, price: u64, field: Field) -> Result<(), Refusal> {
        let percent = self.sheet.limit_1(self.reference);
        if figures::is_within(price, percent, self.reference) {
            Ok(())
        } else {
            Err(Refusal::BeyondLimit1(field))
        }
    }

    fn test_pieces(&self, pieces: u64, price: u64, field: Field) -> Result<(), Refusal> {
        let turnover = self.sheet.turnover();
        if figures::are_allowed(pieces, price, self.reference, turnover) {
            Ok(())
        } else {
            Err(Refusal::PiecesNotAllowed(field))
        }
    }
}
