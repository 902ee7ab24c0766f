//! Which refusal a record must bring, by the tables of REFUSALS.md.

use super::figures::{are_allowed, is_price, is_within};
use super::standing::{Phase, Standing};
use crate::transcript::Line;
use std::fmt;

#[derive(Clone, Copy, Debug, PartialEq, Eq, PartialOrd, Ord)]
pub struct Refusal {
    pub number: u64,
    pub layer: u8,
    pub field: u64,
}

impl fmt::Display for Refusal {
    fn fmt(&self, formatter: &mut fmt::Formatter) -> fmt::Result {
        let layer = self.layer as char;
        write!(formatter, "{} {layer} {}", self.number, self.field)
    }
}

pub const UNREADABLE: Refusal = refusal(18, b'P', 0);

pub const fn refusal(number: u64, layer: u8, field: u64) -> Refusal {
    Refusal {
        number,
        layer,
        field,
    }
}

/// A row of a table: whether the test fails, and the refusal it then gives.
type Test = (bool, Refusal);

fn failing(tests: &[Test]) -> Vec<Refusal> {
    let failing = tests.iter().filter(|(fails, _)| *fails);
    failing.map(|(_, refusal)| *refusal).collect()
}

/// The refusals of all tests that a readable record fails. The first is the one to be told; with
/// none the record must be accepted.
pub fn all_failing(day: Option<&Standing>, asked: &Line) -> Vec<Refusal> {
    let wrong_day = refusal(19, b'P', 0);
    match (asked.letter, day) {
        (b'O', Some(_)) => vec![wrong_day],
        (b'O', None) => open(asked),
        (_, None) => vec![wrong_day],
        (b'E', Some(standing)) => enter(standing, asked),
        (b'C', Some(standing)) => cancel(standing, asked),
        (b'Q', Some(standing)) => quote(standing, asked),
        (b'V', Some(standing)) => validate(standing, asked),
        (b'T', Some(standing)) => clock(standing, asked),
        (b'W', Some(standing)) => failing(&[(standing.quote.is_none(), refusal(13, b'S', 0))]),
        (_, Some(_)) => Vec::new(),
    }
}

fn open(asked: &Line) -> Vec<Refusal> {
    let [reference, ..] = asked.fields;
    failing(&[
        (reference == 0, refusal(15, b'S', 1)),
        (asked.small == 0 || asked.small > 60, refusal(15, b'S', 5)),
    ])
}

fn enter(standing: &Standing, asked: &Line) -> Vec<Refusal> {
    let [price, pieces, ..] = asked.fields;
    let is_halted = matches!(standing.phase, Phase::Halted { .. });
    failing(&[
        (asked.small == 0, refusal(2, b'F', 5)),
        (is_halted, refusal(3, b'S', 0)),
        (standing.phase == Phase::Dark, refusal(4, b'S', 0)),
        (!is_price(price), refusal(5, b'F', 1)),
        (is_beyond_limit_1(standing, price), refusal(6, b'F', 1)),
        (are_refused(standing, pieces, price), refusal(7, b'F', 2)),
        (standing.orders.len() >= 128, refusal(8, b'B', 0)),
        (are_numbers_used_up(standing), refusal(9, b'B', 0)),
    ])
}

fn cancel(standing: &Standing, asked: &Line) -> Vec<Refusal> {
    let order = standing.order(asked.fields[0]);
    let is_senders = order.is_some_and(|order| order.sender == asked.small);
    failing(&[(!is_senders, refusal(10, b'B', 0))])
}

fn quote(standing: &Standing, asked: &Line) -> Vec<Refusal> {
    let is_halted = matches!(standing.phase, Phase::Halted { .. });
    let is_asking = matches!(standing.phase, Phase::Asking { .. });
    let mut tests = vec![
        (is_halted, refusal(3, b'S', 0)),
        (is_asking, refusal(12, b'S', 0)),
    ];
    tests.extend(quote_figures(standing, asked));
    tests.push((are_numbers_used_up(standing), refusal(9, b'B', 0)));
    failing(&tests)
}

fn validate(standing: &Standing, asked: &Line) -> Vec<Refusal> {
    let is_asking = matches!(standing.phase, Phase::Asking { .. });
    let mut tests = vec![(!is_asking, refusal(14, b'S', 0))];
    tests.extend(quote_figures(standing, asked));
    failing(&tests)
}

fn quote_figures(standing: &Standing, asked: &Line) -> [Test; 7] {
    let [bid, bid_pieces, ask, ask_pieces] = asked.fields;
    [
        (!is_price(bid), refusal(5, b'F', 1)),
        (!is_price(ask), refusal(5, b'F', 3)),
        (bid >= ask, refusal(11, b'F', 3)),
        (is_beyond_limit_1(standing, bid), refusal(6, b'F', 1)),
        (is_beyond_limit_1(standing, ask), refusal(6, b'F', 3)),
        (are_refused(standing, bid_pieces, bid), refusal(7, b'F', 2)),
        (are_refused(standing, ask_pieces, ask), refusal(7, b'F', 4)),
    ]
}

fn clock(standing: &Standing, asked: &Line) -> Vec<Refusal> {
    let is_in_range = (standing.clock..=86_400).contains(&asked.small);
    failing(&[(!is_in_range, refusal(16, b'S', 5))])
}

fn is_beyond_limit_1(standing: &Standing, price: u64) -> bool {
    !is_within(price, standing.limits().limit_1, standing.reference)
}

fn are_refused(standing: &Standing, pieces: u64, price: u64) -> bool {
    let turnover = standing.limits().turnover_in_points;
    !are_allowed(pieces, price, standing.reference, turnover)
}

fn are_numbers_used_up(standing: &Standing) -> bool {
    standing.numbers_given >= 1_000_000
}
