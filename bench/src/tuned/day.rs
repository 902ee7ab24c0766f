//! A day: its state, and what all calls share.

use std::marker::PhantomData;

use super::digits::{raw_of, Count, ZEROS};
use super::figures::{Figures, Range, Sheet};
use super::input::Words;
use super::output::{head, Output};
use super::quote::{Quote, Terms};
use super::ranking::{number_of, Layout, Ranking};
use super::rows::{Row, Rows, NUMBERS};
use super::side::{Best, Side};

/// Second that no clock meets.
const NEVER: u32 = u32::MAX;
const HALT_SECONDS: u32 = 120;

#[derive(Clone, Copy, PartialEq, Eq)]
pub enum Phase {
    Dark,
    Lit,
    Rfe,
    Halted,
}

impl Phase {
    /// Head of an answer without slips.
    #[inline(always)]
    fn head(self) -> u64 {
        match self {
            Phase::Dark => head(b'A', b'D'),
            Phase::Lit => head(b'A', b'L'),
            Phase::Rfe => head(b'A', b'R'),
            Phase::Halted => head(b'A', b'H'),
        }
    }
}

/// The particulars of a day.
#[derive(Clone, Copy)]
pub struct Particulars {
    pub sheet: Sheet,
    pub reference: u32,
    pub reply_time: u32,
}

pub struct Day<R> {
    pub figures: Figures,
    pub layout: Layout,
    /// Prices within Limit 2 of the dynamic price.
    pub second: Range,
    pub phase: Phase,
    head: u64,
    /// Dynamic price as digits.
    dynamic: u64,
    /// Opening ticket as digits, or 0 as digits.
    pub opening: u64,
    pub clock: u32,
    /// The second at which RFE or halt is over.
    pub due: u32,
    reply_time: u32,
    pub quote: Quote,
    pub sides: [Side; 2],
    pub rows: Box<Rows>,
    /// An execute-and-cancel order may stand.
    pub brief_stands: bool,
    /// Numbers given out, as a number and as digits.
    pub given: u32,
    count: Count,
    pub accepted: u64,
    pub out: u64,
    ranking: PhantomData<R>,
}

impl<R: Ranking> Day<R> {
    /// Opens a day with rows that an earlier one may have used.
    pub fn new(particulars: Particulars, mut rows: Box<Rows>) -> Self {
        let Particulars {
            sheet,
            reference,
            reply_time,
        } = particulars;
        let figures = Figures::new(sheet, reference);
        let prices = figures.prices();
        rows.clear();
        Day {
            figures,
            layout: Layout::new::<R>(prices.low, prices.high, figures.most_pieces()),
            second: figures.second_limit(reference),
            phase: Phase::Dark,
            head: Phase::Dark.head(),
            dynamic: raw_of(reference),
            opening: ZEROS,
            clock: 0,
            due: NEVER,
            reply_time,
            quote: Quote::NONE,
            sides: [Side::new(), Side::new()],
            rows,
            brief_stands: false,
            given: 0,
            count: Count::new(),
            accepted: 0,
            out: 0,
            ranking: PhantomData,
        }
    }

    #[inline(always)]
    pub fn answer(&self, output: &mut Output, slips: u32, number: u64) {
        output.answer(self.head, slips, number, self.dynamic, self.opening);
    }

    #[inline(always)]
    pub fn numbers_left(&self) -> bool {
        self.given < NUMBERS
    }

    /// The next number as digits.
    #[inline(always)]
    pub fn next_number(&mut self) -> u64 {
        self.given += 1;
        self.count.step()
    }

    /// Dark, or lit if a quote stands; no RFE and no halt.
    #[inline(always)]
    pub fn settle_phase(&mut self) {
        let phase = if self.quote.stands() {
            Phase::Lit
        } else {
            Phase::Dark
        };
        self.enter_phase(phase, NEVER, ZEROS);
    }

    pub fn open_rfe(&mut self, opening: u64) {
        self.enter_phase(Phase::Rfe, self.clock + self.reply_time, opening);
    }

    /// The quote goes with it.
    pub fn halt(&mut self) {
        self.quote = Quote::NONE;
        self.enter_phase(Phase::Halted, self.clock + HALT_SECONDS, ZEROS);
    }

    #[inline(always)]
    fn enter_phase(&mut self, phase: Phase, due: u32, opening: u64) {
        self.phase = phase;
        self.head = phase.head();
        self.due = due;
        self.opening = opening;
    }

    pub fn set_dynamic(&mut self, price: u32) {
        self.dynamic = raw_of(price);
        self.second = self.figures.second_limit(price);
    }

    #[inline(always)]
    pub fn set_quote(&mut self, terms: &Terms, words: Words, number: u32, number_raw: u64) {
        self.quote = Quote {
            signed: [terms.bid as i32, -(terms.ask as i32)],
            pieces: [terms.bid_pieces, terms.ask_pieces],
            raw: [words.first_raw(), words.third_raw()],
            number,
            number_raw,
            flagged: words.mark() == b'F',
        };
    }

    /// The key by which a side of the quote ranks among orders.
    #[inline(always)]
    pub fn quote_key(&self, side: usize) -> u64 {
        let Quote {
            signed,
            pieces,
            number,
            ..
        } = &self.quote;
        self.layout
            .key::<R>(side, signed[side & 1], pieces[side & 1], *number)
    }

    /// Lets an order stand whose number is the last one given out.
    #[inline(always)]
    pub fn stand(&mut self, order: Row) {
        let (side, signed) = (order.side(), order.signed);
        let row = self.rows.place(self.given, order);
        let key = self.layout.key::<R>(side, signed, order.pieces, self.given);
        self.sides[side].insert(Best { key, signed, row });
    }

    /// Takes an order away.
    #[inline(always)]
    pub fn remove(&mut self, side: usize, row: u8) {
        self.rows.release(row);
        if self.sides[side].remove(row) {
            self.search(side);
        }
    }

    /// Lowers an order by pieces that it traded.
    #[inline(always)]
    pub fn lower(&mut self, side: usize, row: u8, pieces: u32) {
        let order = self.rows.at_mut(row);
        order.pieces -= pieces;
        if order.pieces == 0 {
            self.remove(side, row);
        } else if R::BY_SIZE {
            let key = Layout::lowered(self.sides[side].key(row), pieces);
            if self.sides[side].lower(row, key) {
                self.search(side);
            }
        }
    }

    #[inline(always)]
    pub fn search(&mut self, side: usize) {
        let rows = &self.rows;
        self.sides[side & 1].search(|key| {
            let row = rows.row_of(number_of(key));
            (row, rows.at(row).signed)
        });
    }

    pub fn left(&self) -> u64 {
        self.rows
            .standing()
            .map(|row| u64::from(self.rows.at(row).pieces))
            .sum()
    }
}
