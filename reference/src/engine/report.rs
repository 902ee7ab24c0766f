//! The report at close (RULES.md, section 13).

use super::book::Book;

/// Pieces of orders, each total a sum over tickets.
#[derive(Clone, Copy, Debug, Default, PartialEq, Eq)]
pub struct Totals {
    pub accepted: u64,
    pub done: u64,
    pub out: u64,
}

#[derive(Clone, Copy, Debug, PartialEq, Eq)]
pub struct Report {
    pub orders_left: u64,
    pub totals: Totals,
    pub left: u64,
}

impl Report {
    pub fn of(book: &Book) -> Report {
        Report {
            orders_left: book.orders.len() as u64,
            totals: book.totals,
            left: book.orders.iter().map(|order| order.left).sum(),
        }
    }
}
