//! Enter. The order trades from the record it came in, and only what is left of it is placed.
//!
//! In a lit book no standing order reaches the quote and no two meet, so the entered order is the
//! only taker of step A and one party of every pair of step B.

use super::day::{Day, Phase};
use super::digits::{raw_of, ZEROS};
use super::input::Words;
use super::output::{Cause, Output};
use super::ranking::Ranking;
use super::refusal::{self, Refusal};
use super::rows::Row;

const TAG_MASK: u64 = 0x00FF_FFFF_FFFF_FF00;

/// How a step of the cross leaves the entered order.
enum Step {
    /// It has traded, and the cross goes on.
    Traded,
    /// Nothing more for it to trade with.
    Done,
    /// It went out.
    Out,
    /// It opened an RFE.
    Asked,
}

/// An accepted order before it is made a row; most of what a row holds is still in the record.
struct Entered {
    ticket: u64,
    signed: i32,
    pieces: u32,
}

impl Entered {
    #[inline(always)]
    fn order(&self, words: Words) -> Row {
        Row {
            ticket: self.ticket,
            price: words.first_raw(),
            tag: words.head() & TAG_MASK,
            pieces: self.pieces,
            signed: self.signed,
        }
    }
}

/// Minus the price for the marks S and s, without a branch on the mark.
#[inline(always)]
fn signed(price: u32, mark: u8) -> i32 {
    let sells = i32::from(mark & 1);
    (price as i32 ^ -sells) + sells
}

/// The marks b and s.
#[inline(always)]
fn is_brief(mark: u8) -> bool {
    mark & 0x20 != 0
}

impl<R: Ranking> Day<R> {
    #[inline(always)]
    pub fn enter(&mut self, words: Words, output: &mut Output) {
        let [price, pieces] = words.first_two();
        let good = !words.small_is_zero()
            & matches!(self.phase, Phase::Lit | Phase::Rfe)
            & self.figures.price_good(price)
            & self.figures.pieces_good(pieces, price)
            & !self.rows.is_full()
            & self.numbers_left();
        if !good {
            return output.refuse(self.enter_refusal(words, price, pieces));
        }
        self.accepted += u64::from(pieces);
        let entered = Entered {
            ticket: self.next_number(),
            signed: signed(price, words.mark()),
            pieces,
        };
        if self.phase == Phase::Rfe {
            self.brief_stands |= is_brief(words.mark());
        } else if self.meets_something(&entered, words.mark()) {
            return self.cross_entered(entered, words, output);
        } else if is_brief(words.mark()) {
            self.out += u64::from(pieces);
            output.out(Cause::Brief, entered.ticket, words.second_raw());
            return self.answer(output, 1, entered.ticket);
        }
        self.stand(entered.order(words));
        self.answer(output, 0, entered.ticket);
    }

    /// The order would trade, with the quote or with the best order of the other side.
    #[inline(always)]
    fn meets_something(&self, entered: &Entered, mark: u8) -> bool {
        let opposite = usize::from(mark & 1) ^ 1;
        let best = self.sides[opposite].best().signed;
        entered.signed + best.max(self.quote.signed[opposite]) >= 0
    }

    #[cold]
    #[inline(never)]
    fn enter_refusal(&self, words: Words, price: u32, pieces: u32) -> &'static Refusal {
        if words.small_is_zero() {
            &refusal::SENDER
        } else if self.phase == Phase::Halted {
            &refusal::HALTED
        } else if self.phase == Phase::Dark {
            &refusal::DARK
        } else if let Some(refusal) = self.figures.order_refusal(price, pieces) {
            refusal
        } else if self.rows.is_full() {
            &refusal::FULL
        } else {
            &refusal::NUMBERS
        }
    }

    #[inline(never)]
    fn cross_entered(&mut self, entered: Entered, words: Words, output: &mut Output) {
        let mut order = entered.order(words);
        let bounds = self.quote.bounds();
        let mut slips = 0;
        let end = loop {
            let step = if self.reaches_quote(&order) {
                self.meet_quote(&mut order, output)
            } else {
                self.meet_order(&mut order, |price| bounds.hold(price), output)
            };
            slips += u32::from(matches!(step, Step::Traded | Step::Out));
            if !matches!(step, Step::Traded) || order.pieces == 0 {
                break step;
            }
        };
        match end {
            Step::Asked => {
                self.open_rfe(order.ticket);
                self.brief_stands = order.is_brief();
                self.stand(order);
            }
            Step::Done if order.is_brief() => {
                self.put_out(&order, Cause::Brief, output);
                slips += 1;
            }
            Step::Done => self.stand(order),
            Step::Traded | Step::Out => {}
        }
        self.answer(output, slips, order.ticket);
    }

    #[inline(always)]
    fn reaches_quote(&self, order: &Row) -> bool {
        order.signed + self.quote.signed[order.side() ^ 1] >= 0
    }

    /// One turn of step A.
    #[inline(always)]
    fn meet_quote(&mut self, order: &mut Row, output: &mut Output) -> Step {
        let opposite = order.side() ^ 1;
        if self.sides[opposite].best().key > self.quote_key(opposite) {
            return self.meet_order(order, |_| true, output);
        }
        if self.quote.flagged {
            return Step::Asked;
        }
        if !self
            .second
            .holds(self.quote.signed[opposite].unsigned_abs())
        {
            return self.halt_at(order, output);
        }
        let pieces = order.pieces.min(self.quote.pieces[opposite]);
        output.trade(
            self.quote.raw[opposite],
            pieces,
            opposite ^ 1,
            order.ticket,
            ZEROS,
        );
        order.pieces -= pieces;
        self.lower_quote(opposite, pieces);
        Step::Traded
    }

    /// Trades with the first-ranked order of the other side, if the two meet.
    #[inline(always)]
    fn meet_order(
        &mut self,
        order: &mut Row,
        inside: impl Fn(i32) -> bool,
        output: &mut Output,
    ) -> Step {
        let opposite = order.side() ^ 1;
        let best = self.sides[opposite].best();
        if order.signed + best.signed < 0 {
            return Step::Done;
        }
        // The standing order has the lower ticket, so the price is its own.
        let price = best.signed.abs();
        if !inside(price) {
            self.put_out(order, Cause::Outside, output);
            return Step::Out;
        }
        if !self.second.holds(price as u32) {
            return self.halt_at(order, output);
        }
        let partner = self.rows.at(best.row);
        let pieces = order.pieces.min(partner.pieces);
        output.trade(
            partner.price,
            pieces,
            opposite ^ 1,
            order.ticket,
            partner.ticket,
        );
        order.pieces -= pieces;
        self.lower(opposite, best.row, pieces);
        Step::Traded
    }

    #[cold]
    fn halt_at(&mut self, order: &Row, output: &mut Output) -> Step {
        self.put_out(order, Cause::Halted, output);
        self.halt();
        Step::Out
    }

    pub fn put_out(&mut self, order: &Row, cause: Cause, output: &mut Output) {
        self.out += u64::from(order.pieces);
        output.out(cause, order.ticket, raw_of(order.pieces));
    }
}
