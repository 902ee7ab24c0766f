//! Records made worse: figures that a call refuses, and bytes that cannot be read.

use super::choose_figures::{limit_1_bounds, most_pieces, on_tick};
use super::random::Random;
use super::record::Record;
use crate::engine::book::Book;
use crate::engine::figures::tick;

/// A price that is refused: 0, off tick or beyond Limit 1.
pub fn wrong_price(random: &mut Random, book: &Book, right: u64) -> u64 {
    let (low, high) = limit_1_bounds(book);
    match random.below(4) {
        0 => 0,
        1 => right + 1,
        2 => on_tick(high + 100),
        _ => on_tick(low.saturating_sub(tick(low))),
    }
}

/// Pieces that are refused: 0, or more than are allowed at the price.
pub fn wrong_pieces(random: &mut Random, book: &Book, price: u64) -> u64 {
    match random.below(3) {
        0 => 0,
        1 => most_pieces(book, price) + 1,
        _ => 10_000_001,
    }
}

/// Makes a record unreadable, or now and then into another that can be read.
pub fn spoil(random: &mut Random, record: &mut Record) {
    let digit_place = 2 + random.below(37) as usize;
    match random.below(7) {
        0 => record[39] = random.pick(b" 0\r-"),
        1 => record[0] = random.pick(b"AZNGe x-Y"),
        2 => record[1] = random.pick(b"-BSbsFPLIZ0 "),
        3 => record[digit_place] = random.pick(b"+- /:xA"),
        4 => record[38] = b'1',
        5 => record[6] = b'1',
        _ => record[22] = random.pick(b"0345678"),
    }
}
