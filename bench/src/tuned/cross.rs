//! The cross of all calls but enter: among standing orders, and never opening an RFE.

use super::day::{Day, Phase};
use super::digits::ZEROS;
use super::output::{Cause, Output};
use super::quote::{Bounds, Quote};
use super::ranking::{number_of, Ranking};
use super::rows::{Row, ROWS};

const BUY: usize = 0;
const SELL: usize = 1;

/// No order waits.
pub const ALL_SETTLED: u32 = u32::MAX;

/// Where a party stands.
#[derive(Clone, Copy)]
struct Party {
    side: usize,
    row: u8,
}

/// For each side the key of its first-ranked settled order within bid and ask, once it was looked
/// for. It stays right until that order has traded.
#[derive(Default)]
struct Partners([Option<u64>; 2]);

impl<R: Ranking> Day<R> {
    /// Steps A and B and the tail, with the quote that stands. Orders with the number `waiting` or
    /// a higher one are waiting. Tells how many slips were written.
    #[inline(never)]
    pub fn cross(&mut self, waiting: u32, output: &mut Output) -> u32 {
        let bounds = self.quote.bounds();
        self.settle_phase();
        let slips = self.step_a(waiting, output);
        self.finish_cross(slips, bounds, output)
    }

    /// Step B and the tail, after removing the quote that stands.
    pub fn cross_without_quote(&mut self, output: &mut Output) -> u32 {
        let bounds = self.quote.bounds();
        self.quote = Quote::NONE;
        self.settle_phase();
        self.finish_cross(0, bounds, output)
    }

    fn finish_cross(&mut self, mut slips: u32, bounds: Bounds, output: &mut Output) -> u32 {
        if self.phase != Phase::Halted {
            slips += self.step_b(bounds, output);
        }
        if self.brief_stands {
            slips += self.tail(output);
        }
        slips
    }

    fn step_a(&mut self, waiting: u32, output: &mut Output) -> u32 {
        let mut slips = 0;
        let mut partners = Partners::default();
        // A quote that goes within the loop is then out of reach.
        while let Some(taker) = self.taker() {
            slips += 1;
            match self.partner(taker.side ^ 1, waiting, &mut partners) {
                Some(partner) => self.pair_orders(taker, partner, output),
                None => self.take_quote(taker, output),
            }
            // The taker may have been a settled order that was found as partner before.
            partners.0[taker.side] = None;
        }
        slips
    }

    #[inline(always)]
    fn taker(&self) -> Option<Party> {
        if self.quote.reached_by(&self.sides, BUY) {
            Some(self.first_of(BUY))
        } else if self.quote.reached_by(&self.sides, SELL) {
            Some(self.first_of(SELL))
        } else {
            None
        }
    }

    #[inline(always)]
    fn first_of(&self, side: usize) -> Party {
        Party {
            side,
            row: self.sides[side].best().row,
        }
    }

    /// The partner from a side, unless it is the quote.
    #[inline(always)]
    fn partner(&self, side: usize, waiting: u32, partners: &mut Partners) -> Option<Party> {
        let key = *partners.0[side].get_or_insert_with(|| self.first_settled(side, waiting));
        if key < self.quote_key(side) {
            return None;
        }
        partners.0[side] = None;
        Some(Party {
            side,
            row: self.rows.row_of(number_of(key)),
        })
    }

    /// The key of the first-ranked settled order of a side within bid and ask, or 0.
    fn first_settled(&self, side: usize, waiting: u32) -> u64 {
        // Worse prices than the quote's own are never partners. Better ones are, up to those that
        // reach the quote's other side.
        let worst = self.layout.price_part(side, self.quote.signed[side]);
        let beyond = self
            .layout
            .price_part(side, 1 - self.quote.signed[side ^ 1]);
        self.sides[side].highest_of(worst, beyond, |key| number_of(key) < waiting)
    }

    fn take_quote(&mut self, taker: Party, output: &mut Output) {
        let opposite = taker.side ^ 1;
        if !self
            .second
            .holds(self.quote.signed[opposite].unsigned_abs())
        {
            return self.halt_out(taker, output);
        }
        let order = *self.rows.at(taker.row);
        let pieces = order.pieces.min(self.quote.pieces[opposite]);
        output.trade(
            self.quote.raw[opposite],
            pieces,
            taker.side,
            order.ticket,
            ZEROS,
        );
        self.lower(taker.side, taker.row, pieces);
        self.lower_quote(opposite, pieces);
    }

    /// Lowers a side of the quote; a side used up takes the quote away.
    #[inline(always)]
    pub fn lower_quote(&mut self, side: usize, pieces: u32) {
        self.quote.pieces[side] -= pieces;
        if self.quote.pieces[side] == 0 {
            self.quote = Quote::NONE;
            self.settle_phase();
        }
    }

    fn step_b(&mut self, bounds: Bounds, output: &mut Output) -> u32 {
        let mut slips = 0;
        while self.phase != Phase::Halted && self.best_meet() {
            slips += 1;
            let [older, younger] = self.first_by_age();
            if bounds.hold(self.rows.at(older.row).signed.abs()) {
                self.pair_orders(younger, older, output);
            } else {
                self.send_out(younger, Cause::Outside, output);
            }
        }
        slips
    }

    #[inline(always)]
    fn best_meet(&self) -> bool {
        self.sides[BUY].best().signed + self.sides[SELL].best().signed >= 0
    }

    /// The first-ranked of both sides, the one with the lower ticket first.
    #[inline(always)]
    fn first_by_age(&self) -> [Party; 2] {
        let numbers = [BUY, SELL].map(|side| number_of(self.sides[side].best().key));
        let older = usize::from(numbers[SELL] < numbers[BUY]);
        [self.first_of(older), self.first_of(older ^ 1)]
    }

    /// Trades at the partner's price, or halts the book and puts the taker out.
    #[inline(always)]
    fn pair_orders(&mut self, taker: Party, partner: Party, output: &mut Output) {
        let (order, other): (Row, Row) = (*self.rows.at(taker.row), *self.rows.at(partner.row));
        if !self.second.holds(other.signed.unsigned_abs()) {
            return self.halt_out(taker, output);
        }
        let pieces = order.pieces.min(other.pieces);
        output.trade(other.price, pieces, taker.side, order.ticket, other.ticket);
        self.lower(taker.side, taker.row, pieces);
        self.lower(partner.side, partner.row, pieces);
    }

    #[cold]
    fn halt_out(&mut self, loser: Party, output: &mut Output) {
        self.send_out(loser, Cause::Halted, output);
        self.halt();
    }

    fn send_out(&mut self, party: Party, cause: Cause, output: &mut Output) {
        let order = *self.rows.at(party.row);
        self.put_out(&order, cause, output);
        self.remove(party.side, party.row);
    }

    /// Puts every execute-and-cancel order out, the lowest ticket first.
    fn tail(&mut self, output: &mut Output) -> u32 {
        let mut going = [(0, 0); ROWS];
        let mut count = 0;
        for row in self
            .rows
            .standing()
            .filter(|&row| self.rows.at(row).is_brief())
        {
            going[count % ROWS] = (self.rows.at(row).age(), row);
            count += 1;
        }
        let going = &mut going[..count];
        going.sort_unstable();
        let mut was_best = [false; 2];
        for &mut (_, row) in going {
            let order = *self.rows.at(row);
            self.put_out(&order, Cause::Brief, output);
            self.rows.release(row);
            was_best[order.side()] |= self.sides[order.side()].remove(row);
        }
        for side in [BUY, SELL] {
            if was_best[side] {
                self.search(side);
            }
        }
        self.brief_stands = false;
        count as u32
    }
}
