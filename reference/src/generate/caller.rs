//! The record of one call, with figures that mean something in the book as it stands.

use super::choose_call::Choice;
use super::choose_figures::{bid_and_ask, moved, order_price, pieces};
use super::mood::Mood;
use super::random::Random;
use super::record::{bare, record, Record};
use super::spoil::{wrong_pieces, wrong_price};
use crate::engine::book::{Book, Phase};
use crate::engine::order::{Order, Side};

/// Makes the record of one call for the book as it stands.
pub struct Caller<'a> {
    pub random: &'a mut Random,
    pub mood: &'a Mood,
    pub book: &'a Book,
}

impl Caller<'_> {
    pub fn call(&mut self, choice: Choice) -> Record {
        match choice {
            Choice::Enter => self.enter(),
            Choice::Cancel => self.cancel(),
            Choice::Quote => self.quote(),
            Choice::Validate => self.validate(),
            Choice::Clock => self.clock(),
            Choice::Withdraw => bare(b'W'),
            Choice::Decline => bare(b'D'),
            Choice::Renew => bare(b'R'),
        }
    }

    fn is_wrong(&mut self) -> bool {
        self.random.permille(self.mood.wrong)
    }

    /// How many figures of a call to make wrong: several, so that the order of tests shows.
    fn wrong_figures(&mut self) -> u64 {
        if self.is_wrong() {
            self.random.between(1, 3)
        } else {
            0
        }
    }

    fn enter(&mut self) -> Record {
        let side = self.random.pick(&[Side::Buy, Side::Sell]);
        let mut price = order_price(self.random, self.mood, self.book, side);
        let mut order_pieces = pieces(self.random, self.book, price, self.mood.order_pieces);
        let mut sender = self.random.pick(&[1, 2, 3, 4, 5, 6, 7, 99_999]);
        for _ in 0..self.wrong_figures() {
            match self.random.below(5) {
                0 => sender = 0,
                1 | 2 => price = wrong_price(self.random, self.book, price),
                _ => order_pieces = wrong_pieces(self.random, self.book, price),
            }
        }
        let execute_and_cancel = self.random.percent(self.mood.execute_and_cancel);
        let mark = match (side, execute_and_cancel) {
            (Side::Buy, false) => b'B',
            (Side::Sell, false) => b'S',
            (Side::Buy, true) => b'b',
            (Side::Sell, true) => b's',
        };
        record(b'E', mark, sender, [price, order_pieces, 0, 0])
    }

    fn cancel(&mut self) -> Record {
        let Some(order) = self.order_to_cancel() else {
            return record(b'C', b'-', 1, [self.book.last_number, 0, 0, 0]);
        };
        let (mut sender, mut ticket) = (order.sender, order.ticket);
        if self.is_wrong() {
            match self.random.below(3) {
                0 => sender = self.random.pick(&[0, 1, 2, 99_999]),
                1 => ticket = self.book.last_number + 1,
                _ => ticket = self.random.between(0, self.book.last_number),
            }
        }
        record(b'C', b'-', sender, [ticket, 0, 0, 0])
    }

    /// In an RFE mostly an order that reaches the quote, since without these it ends.
    fn order_to_cancel(&mut self) -> Option<Order> {
        let orders = &self.book.orders;
        if orders.is_empty() {
            return None;
        }
        if let (Some(quote), Some(_)) = (self.book.quote, self.book.rfe()) {
            let is_reaching = |order: &&Order| order.reaches(&quote);
            let reaching: Vec<Order> = orders.iter().filter(is_reaching).copied().collect();
            if !reaching.is_empty() && self.random.percent(70) {
                return Some(self.random.pick(&reaching));
            }
        }
        Some(self.random.pick(orders))
    }

    fn quote(&mut self) -> Record {
        let terms = bid_and_ask(self.random, self.mood, self.book);
        self.quote_record(b'Q', terms)
    }

    fn validate(&mut self) -> Record {
        let terms = match self.book.quote {
            Some(quote) if self.random.percent(35) => (quote.bid, quote.ask),
            Some(quote) if self.random.percent(60) => moved(self.random, &quote),
            _ => bid_and_ask(self.random, self.mood, self.book),
        };
        self.quote_record(b'V', terms)
    }

    fn quote_record(&mut self, letter: u8, (mut bid, mut ask): (u64, u64)) -> Record {
        let mut bid_pieces = pieces(self.random, self.book, bid, self.mood.quote_pieces);
        let mut ask_pieces = pieces(self.random, self.book, ask, self.mood.quote_pieces);
        for _ in 0..self.wrong_figures() {
            match self.random.below(5) {
                0 => bid = wrong_price(self.random, self.book, bid),
                1 => ask = wrong_price(self.random, self.book, ask),
                2 => bid_pieces = wrong_pieces(self.random, self.book, bid),
                3 => ask_pieces = wrong_pieces(self.random, self.book, ask),
                _ => (bid, ask) = (ask, bid),
            }
        }
        let is_flagged = self.random.percent(self.mood.flagged);
        let mark = if is_flagged { b'F' } else { b'P' };
        record(letter, mark, 0, [bid, bid_pieces, ask, ask_pieces])
    }

    /// Seconds about the one that the phase waits for.
    fn clock(&mut self) -> Record {
        let now = self.book.clock;
        if self.is_wrong() {
            let wrong = [now.saturating_sub(1), 86_401, 99_999];
            return record(b'T', b'-', self.random.pick(&wrong), [0; 4]);
        }
        let awaited = match self.book.phase {
            Phase::InRfe(rfe) => rfe.due,
            Phase::Halted { over } => over,
            Phase::Dark | Phase::Lit => now + self.random.between(0, 3),
        };
        let seconds = match self.random.below(5) {
            0 => self.random.between(now, awaited),
            1 => awaited.saturating_sub(1),
            2 => awaited + self.random.between(0, 20),
            _ => awaited,
        };
        record(b'T', b'-', seconds.min(86_400), [0; 4])
    }
}
