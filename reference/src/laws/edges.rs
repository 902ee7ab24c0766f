//! Values at the edges of the rules, and why exactly a value was refused. For counting only.

use super::refusals::Refusal;
use super::standing::{Phase, Standing};
use crate::transcript::Line;

const LAST_SECOND: u64 = 86_400;
const MOST_PIECES: u64 = 10_000_000;

/// A value on the accepted side of an edge.
#[derive(Clone, Copy, Debug, PartialEq, Eq, PartialOrd, Ord)]
pub enum Edge {
    PriceAtLimit1Above,
    PriceAtLimit1Below,
    TradeAtLimit2Above,
    TradeAtLimit2Below,
    PiecesAtTurnover,
    MostPieces,
    PairAtGoverningBid,
    PairAtGoverningAsk,
    ClockAtDue,
    ClockJustBeforeDue,
    ClockAtEndOfHalt,
    ClockJustBeforeEndOfHalt,
    ClockAtPresentSecond,
    ClockAtLastSecond,
    DueAfterLastSecond,
    HaltOverAfterLastSecond,
}

/// Why a value was refused.
#[derive(Clone, Copy, Debug, PartialEq, Eq, PartialOrd, Ord)]
pub enum Reason {
    PriceOf0,
    PriceOffTick,
    PriceAboveLimit1,
    PriceBelowLimit1,
    PiecesOf0,
    MoreThanMostPieces,
    TurnoverAtReference,
    TurnoverAtPrice,
    SecondsBelowClock,
    SecondsAboveLast,
    ReplyTimeOf0,
    ReplyTimeTooLong,
    TicketOfAnother,
    TicketOfNoOrder,
}

/// The edges that an accepted record stands on, judged by what stood before it.
pub fn edges_of(standing: &Standing, asked: &Line) -> Vec<Edge> {
    let [one, two, three, four] = asked.fields;
    match asked.letter {
        b'E' => figures_edges(standing, one, two),
        b'Q' | b'V' => {
            let mut edges = figures_edges(standing, one, two);
            edges.extend(figures_edges(standing, three, four));
            edges
        }
        b'T' => clock_edges(standing, asked.small),
        _ => Vec::new(),
    }
}

fn figures_edges(standing: &Standing, price: u64, pieces: u64) -> Vec<Edge> {
    let (limits, reference) = (standing.limits(), standing.reference);
    let turnover = pieces * price.max(reference);
    held([
        (
            at_limit_above(price, limits.limit_1, reference),
            Edge::PriceAtLimit1Above,
        ),
        (
            at_limit_below(price, limits.limit_1, reference),
            Edge::PriceAtLimit1Below,
        ),
        (
            turnover == limits.turnover_in_points,
            Edge::PiecesAtTurnover,
        ),
        (pieces == MOST_PIECES, Edge::MostPieces),
    ])
}

fn clock_edges(standing: &Standing, seconds: u64) -> Vec<Edge> {
    let (mut due, mut over) = (None, None);
    match standing.phase {
        Phase::Asking { due: second, .. } => due = Some(second),
        Phase::Halted { over: second } => over = Some(second),
        Phase::Dark | Phase::Lit => {}
    }
    let is_after_last = |second: Option<u64>| second.is_some_and(|second| second > LAST_SECOND);
    held([
        (due == Some(seconds), Edge::ClockAtDue),
        (due == Some(seconds + 1), Edge::ClockJustBeforeDue),
        (is_after_last(due), Edge::DueAfterLastSecond),
        (over == Some(seconds), Edge::ClockAtEndOfHalt),
        (over == Some(seconds + 1), Edge::ClockJustBeforeEndOfHalt),
        (is_after_last(over), Edge::HaltOverAfterLastSecond),
        (seconds == standing.clock, Edge::ClockAtPresentSecond),
        (seconds == LAST_SECOND, Edge::ClockAtLastSecond),
    ])
}

/// The edges that the price of a trade stands on.
pub fn edges_of_trade(standing: &Standing, price: u64) -> Vec<Edge> {
    let limit_2 = standing.limits().limit_2;
    held([
        (
            at_limit_above(price, limit_2, standing.dynamic),
            Edge::TradeAtLimit2Above,
        ),
        (
            at_limit_below(price, limit_2, standing.dynamic),
            Edge::TradeAtLimit2Below,
        ),
    ])
}

fn at_limit_above(price: u64, percent: u64, base: u64) -> bool {
    100 * price == (100 + percent) * base
}

fn at_limit_below(price: u64, percent: u64, base: u64) -> bool {
    100 * price + percent * base == 100 * base
}

fn held<const N: usize>(edges: [(bool, Edge); N]) -> Vec<Edge> {
    let held = edges.into_iter().filter(|(holds, _)| *holds);
    held.map(|(_, edge)| edge).collect()
}

/// Why a refusal that has several reasons came about.
pub fn reason_of(day: Option<&Standing>, asked: &Line, refusal: Refusal) -> Option<Reason> {
    let [one, two, three, four] = asked.fields;
    let (price, pieces) = match refusal.field {
        3 | 4 => (three, four),
        _ => (one, two),
    };
    let standing = match (refusal.number, day) {
        (15, _) if refusal.field == 5 && asked.small == 0 => return Some(Reason::ReplyTimeOf0),
        (15, _) if refusal.field == 5 => return Some(Reason::ReplyTimeTooLong),
        (_, day) => day?,
    };
    match refusal.number {
        5 if price == 0 => Some(Reason::PriceOf0),
        5 => Some(Reason::PriceOffTick),
        6 if price > standing.reference => Some(Reason::PriceAboveLimit1),
        6 => Some(Reason::PriceBelowLimit1),
        7 => Some(reason_of_pieces(standing, pieces)),
        10 if standing.order(one).is_some() => Some(Reason::TicketOfAnother),
        10 => Some(Reason::TicketOfNoOrder),
        16 if asked.small < standing.clock => Some(Reason::SecondsBelowClock),
        16 => Some(Reason::SecondsAboveLast),
        _ => None,
    }
}

fn reason_of_pieces(standing: &Standing, pieces: u64) -> Reason {
    let turnover = standing.limits().turnover_in_points;
    if pieces == 0 {
        Reason::PiecesOf0
    } else if pieces > MOST_PIECES {
        Reason::MoreThanMostPieces
    } else if pieces * standing.reference > turnover {
        Reason::TurnoverAtReference
    } else {
        Reason::TurnoverAtPrice
    }
}
