//! Prices and pieces that mean something in the book as it stands.

use super::mood::Mood;
use super::random::Random;
use crate::engine::book::Book;
use crate::engine::figures::{tick, HIGHEST_PRICE, MOST_PIECES, POINTS_IN_A_UNIT};
use crate::engine::order::Side;
use crate::engine::quote::Quote;

/// The nearest price on tick at or below another, at least 1.
pub fn on_tick(price: u64) -> u64 {
    let price = price.clamp(1, HIGHEST_PRICE);
    (price - price % tick(price)).max(1)
}

/// The lowest and the highest price within Limit 1 of the reference.
pub fn limit_1_bounds(book: &Book) -> (u64, u64) {
    let width = limit_1_width(book);
    let low = book.reference.saturating_sub(width).max(1);
    (low, (book.reference + width).min(HIGHEST_PRICE))
}

fn limit_1_width(book: &Book) -> u64 {
    book.reference * book.sheet.limit_1(book.reference) / 100
}

/// The most pieces that are allowed at a price.
pub fn most_pieces(book: &Book, price: u64) -> u64 {
    let turnover = book.sheet.turnover() * POINTS_IN_A_UNIT;
    let by_turnover = turnover / book.reference.max(price).max(1);
    by_turnover.min(MOST_PIECES)
}

/// Pieces for a price: mostly few, so that equal sizes happen, seldom the most that are allowed.
pub fn pieces(random: &mut Random, book: &Book, price: u64, usual: u64) -> u64 {
    let most = most_pieces(book, price);
    if random.percent(1) {
        return most;
    }
    if random.percent(30) {
        return random.pick(&[1, 2, 3, 5, 10]);
    }
    random.between(1, usual.min(most))
}

/// The outermost prices within Limit 2 of the dynamic price, or just beyond.
fn limit_2_edge(random: &mut Random, book: &Book) -> u64 {
    let width = book.dynamic_price * book.sheet.limit_2(book.reference) / 100;
    let beyond = random.pick(&[0, 0, 1]);
    if random.percent(50) || width >= book.dynamic_price {
        let edge = book.dynamic_price + width;
        edge + beyond * tick(edge)
    } else {
        let edge = book.dynamic_price - width;
        edge.saturating_sub(beyond * tick(edge))
    }
}

/// A few ticks, mostly none or one.
fn some_ticks(random: &mut Random, price: u64) -> u64 {
    tick(price) * random.pick(&[0, 0, 1, 1, 2, 3, 5, 20])
}

/// A price for an order of a side, near the quote.
pub fn order_price(random: &mut Random, mood: &Mood, book: &Book, side: Side) -> u64 {
    let (low, high) = limit_1_bounds(book);
    let price = match book.quote {
        _ if random.percent(mood.edges) => limit_2_edge(random, book),
        Some(quote) if random.percent(mood.reaching) => reaching(random, &quote, side),
        Some(quote) if random.percent(mood.inside) => random.between(quote.bid, quote.ask),
        Some(quote) => staying_behind(random, &quote, side),
        None => random.between(low, high),
    };
    on_tick(price.clamp(low, high))
}

fn reaching(random: &mut Random, quote: &Quote, side: Side) -> u64 {
    match side {
        Side::Buy => quote.ask + some_ticks(random, quote.ask),
        Side::Sell => quote.bid.saturating_sub(some_ticks(random, quote.bid)),
    }
}

fn staying_behind(random: &mut Random, quote: &Quote, side: Side) -> u64 {
    match side {
        Side::Buy => quote.bid.saturating_sub(some_ticks(random, quote.bid)),
        Side::Sell => quote.ask + some_ticks(random, quote.ask),
    }
}

/// Bid and ask of a new quote.
pub fn bid_and_ask(random: &mut Random, mood: &Mood, book: &Book) -> (u64, u64) {
    let (low, high) = limit_1_bounds(book);
    if random.percent(mood.edges) {
        return edge_quote(random, book);
    }
    let middle = middle_price(random, mood, book).clamp(low, high);
    let widest = (middle * mood.width / 100).max(2 * tick(middle));
    let half = random.between(1, widest);
    let bid = on_tick(middle.saturating_sub(half).max(low));
    let ask = on_tick((middle + half).min(high));
    if bid < ask {
        (bid, ask)
    } else {
        (bid, bid + tick(bid + tick(bid)))
    }
}

/// A quote with one price at the edge of Limit 1 or Limit 2, and the other near it.
fn edge_quote(random: &mut Random, book: &Book) -> (u64, u64) {
    let (low, high) = limit_1_bounds(book);
    let limit_2 = limit_2_edge(random, book);
    let edge = on_tick(random.pick(&[low, high, limit_2, limit_2, limit_2]));
    let apart = random.between(1, 5);
    if random.percent(50) {
        (edge, on_tick(edge + apart * tick(edge + 1)))
    } else {
        (on_tick(edge.saturating_sub(apart * tick(edge))), edge)
    }
}

fn middle_price(random: &mut Random, mood: &Mood, book: &Book) -> u64 {
    let near = random.pick(&[book.reference, book.dynamic_price, book.dynamic_price]);
    let shift = random.between(0, limit_1_width(book) * mood.swing / 100);
    if random.percent(40) {
        near
    } else if random.percent(50) {
        near + shift
    } else {
        near.saturating_sub(shift)
    }
}

/// Bid and ask a few ticks away from those of a quote.
pub fn moved(random: &mut Random, quote: &Quote) -> (u64, u64) {
    let bid_shift = some_ticks(random, quote.bid);
    let ask_shift = some_ticks(random, quote.ask);
    let bid = if random.percent(50) {
        quote.bid + bid_shift
    } else {
        quote.bid.saturating_sub(bid_shift)
    };
    let ask = if random.percent(50) {
        quote.ask + ask_shift
    } else {
        quote.ask.saturating_sub(ask_shift)
    };
    (on_tick(bid), on_tick(ask))
}
