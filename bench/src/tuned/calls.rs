//! All calls but enter.

use super::cross::ALL_SETTLED;
use super::day::{Day, Phase};
use super::digits::{bare, raw_of, value, ZEROS};
use super::input::Words;
use super::output::{Cause, Output};
use super::quote::{Quote, Terms};
use super::ranking::Ranking;
use super::refusal::{self, Refusal};

const LAST_SECOND: u32 = 86_400;

impl<R: Ranking> Day<R> {
    #[inline(always)]
    pub fn cancel(&mut self, words: Words, output: &mut Output) {
        let ticket = words.first_raw();
        let found = self.rows.find(value(bare(ticket)), ticket);
        let Some(row) = found.filter(|&row| self.rows.at(row).sender() == words.small_raw()) else {
            return output.refuse(&refusal::TICKET);
        };
        let order = *self.rows.at(row);
        let side = order.side();
        self.out += u64::from(order.pieces);
        output.out(Cause::Cancelled, ticket, raw_of(order.pieces));
        self.remove(side, row);
        let slips = if self.phase == Phase::Rfe && !self.quote_is_reached() {
            1 + self.cross(self.opening_number(), output)
        } else {
            1
        };
        self.answer(output, slips, ZEROS);
    }

    #[inline(always)]
    fn opening_number(&self) -> u32 {
        value(bare(self.opening))
    }

    #[inline(always)]
    fn quote_is_reached(&self) -> bool {
        self.quote.reached_by(&self.sides, 0) | self.quote.reached_by(&self.sides, 1)
    }

    #[inline(always)]
    pub fn quote(&mut self, words: Words, output: &mut Output) {
        let terms = terms_of(words);
        let good = matches!(self.phase, Phase::Dark | Phase::Lit)
            & self.figures.terms_good(&terms)
            & self.numbers_left();
        if !good {
            return output.refuse(self.quote_refusal(&terms));
        }
        let number = self.next_number();
        self.set_quote(&terms, words, self.given, number);
        let slips = if self.is_quiet() {
            self.settle_phase();
            0
        } else {
            self.cross(ALL_SETTLED, output)
        };
        self.answer(output, slips, number);
    }

    /// Nothing for a cross to do.
    #[inline(always)]
    fn is_quiet(&self) -> bool {
        let best = [self.sides[0].best().signed, self.sides[1].best().signed];
        let dearest = [
            best[0].max(self.quote.signed[0]),
            best[1].max(self.quote.signed[1]),
        ];
        dearest[0] + dearest[1] < 0
    }

    #[cold]
    #[inline(never)]
    fn quote_refusal(&self, terms: &Terms) -> &'static Refusal {
        match self.phase {
            Phase::Halted => &refusal::HALTED,
            Phase::Rfe => &refusal::IN_RFE,
            Phase::Dark | Phase::Lit => self
                .figures
                .terms_refusal(terms)
                .unwrap_or(&refusal::NUMBERS),
        }
    }

    #[inline(always)]
    pub fn validate(&mut self, words: Words, output: &mut Output) {
        if self.phase != Phase::Rfe {
            return output.refuse(&refusal::SUMMONS);
        }
        let terms = terms_of(words);
        if let Some(refusal) = self.figures.terms_refusal(&terms) {
            return output.refuse(refusal);
        }
        let waiting = self.opening_number();
        let Quote {
            number, number_raw, ..
        } = self.quote;
        self.set_quote(&terms, words, number, number_raw);
        let slips = self.cross(waiting, output);
        self.answer(output, slips, number_raw);
    }

    #[inline(always)]
    pub fn withdraw(&mut self, output: &mut Output) {
        match self.phase {
            Phase::Dark | Phase::Halted => output.refuse(&refusal::NO_QUOTE),
            Phase::Lit => {
                self.quote = Quote::NONE;
                self.settle_phase();
                self.answer(output, 0, ZEROS);
            }
            Phase::Rfe => self.end_rfe(output),
        }
    }

    #[inline(always)]
    pub fn decline(&mut self, output: &mut Output) {
        match self.phase {
            Phase::Rfe => self.end_rfe(output),
            _ => self.answer(output, 0, ZEROS),
        }
    }

    #[inline(never)]
    fn end_rfe(&mut self, output: &mut Output) {
        let slips = self.cross_without_quote(output);
        self.answer(output, slips, ZEROS);
    }

    #[inline(always)]
    pub fn clock(&mut self, words: Words, output: &mut Output) {
        let seconds = words.small();
        if seconds < self.clock || seconds > LAST_SECOND {
            return output.refuse(&refusal::SECONDS);
        }
        self.clock = seconds;
        if seconds < self.due {
            return self.answer(output, 0, ZEROS);
        }
        if self.phase == Phase::Rfe {
            return self.end_rfe(output);
        }
        self.settle_phase();
        self.answer(output, 0, ZEROS);
    }

    #[inline(always)]
    pub fn renew(&mut self, output: &mut Output) {
        if self.quote.stands() {
            self.set_dynamic(self.quote.middle());
        }
        self.answer(output, 0, ZEROS);
    }

    /// What X writes: an open RFE is declined first.
    pub fn close(&mut self, output: &mut Output) {
        if self.phase == Phase::Rfe {
            self.end_rfe(output);
        }
        let left = self.left();
        // By the ledger, what was accepted and neither went out nor is left has traded.
        let done = self.accepted - self.out - left;
        output.report(b'1', u32::from(self.rows.used()), self.accepted, done);
        output.report(b'2', 0, self.out, left);
    }
}

#[inline(always)]
fn terms_of(words: Words) -> Terms {
    let [bid, bid_pieces] = words.first_two();
    let [ask, ask_pieces] = words.last_two();
    Terms {
        bid,
        bid_pieces,
        ask,
        ask_pieces,
    }
}
