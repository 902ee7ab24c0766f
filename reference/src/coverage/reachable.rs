//! Everything that an input can reach, by reasoning from the documents.
//!
//! What is not here cannot happen. Some of the reasons:
//!
//! - Cause 2 in a cancel: no order reaches the quote then, so every pair that crosses lies inside it.
//! - Cause 3 in a quote: execute-and-cancel orders stand only during an RFE, in which a quote is
//!   refused. After a halt in an enter: the only such order is the entered one, and it went out.
//! - A cancel, withdraw, decline, clock or close finds no taker, so it works step B alone.
//! - A cancel that ends an RFE leaves the quote untouched, so the book is lit or halted.

use crate::laws::{refusal, Edge, Event, Part, Parties, Rare, Reason, Refusal, Sight};
use crate::transcript::Flaw;

pub fn reachable() -> Vec<Sight> {
    let mut sights = Vec::new();
    sights.extend(days());
    sights.extend(unreadable());
    sights.extend(refused());
    sights.extend(REASONS.map(Sight::RefusedFor));
    sights.extend(tested_before());
    sights.extend(EDGES.map(Sight::AtEdge));
    sights.extend(moved());
    sights.extend(traded());
    sights.extend(put_out());
    sights.extend(RARE.map(Sight::Rare));
    sights.extend("DLRH".chars().map(|phase| Sight::InputEnded { phase }));
    sights
}

const RARE: [Rare; 6] = [
    Rare::RfeOpenedAfterTradesOfTheSameCall,
    Rare::RfeGoesOnWithoutItsOpener,
    Rare::RfeEndsWithManyWaitingOnBothSides,
    Rare::ValidatedWithOtherPrices,
    Rare::AllPlacesTaken,
    Rare::LongestSlipList,
];

fn days() -> Vec<Sight> {
    let mut sights = Vec::new();
    for sheet in ['L', 'I'] {
        sights.extend([1, 2].map(|ranking| Sight::Opened { sheet, ranking }));
        sights.extend((0..9).map(|row| Sight::ReferenceRow { sheet, row }));
    }
    sights
}

fn unreadable() -> Vec<Sight> {
    let mut flaws = vec![
        Flaw::Short,
        Flaw::NoNewline,
        Flaw::UnknownLetter,
        Flaw::UnknownRanking,
    ];
    for letter in *b"OECQVTWDRX" {
        flaws.push(Flaw::WrongMark(letter));
        flaws.push(Flaw::NoDigit(letter));
        flaws.push(Flaw::UnusedDigit(letter));
    }
    flaws.into_iter().map(Sight::Unreadable).collect()
}

/// Letter, refusal, and the phases in which it can be; `-` is no open day.
const REFUSED: &[(char, Refusal, &str)] = &[
    ('O', refusal(15, b'S', 1), "-"),
    ('O', refusal(15, b'S', 5), "-"),
    ('O', refusal(19, b'P', 0), "DLRH"),
    ('E', refusal(19, b'P', 0), "-"),
    ('C', refusal(19, b'P', 0), "-"),
    ('Q', refusal(19, b'P', 0), "-"),
    ('V', refusal(19, b'P', 0), "-"),
    ('T', refusal(19, b'P', 0), "-"),
    ('W', refusal(19, b'P', 0), "-"),
    ('D', refusal(19, b'P', 0), "-"),
    ('R', refusal(19, b'P', 0), "-"),
    ('X', refusal(19, b'P', 0), "-"),
    ('E', refusal(2, b'F', 5), "DLRH"),
    ('E', refusal(3, b'S', 0), "H"),
    ('E', refusal(4, b'S', 0), "D"),
    ('E', refusal(5, b'F', 1), "LR"),
    ('E', refusal(6, b'F', 1), "LR"),
    ('E', refusal(7, b'F', 2), "LR"),
    ('E', refusal(8, b'B', 0), "LR"),
    ('E', refusal(9, b'B', 0), "LR"),
    ('C', refusal(10, b'B', 0), "DLRH"),
    ('Q', refusal(3, b'S', 0), "H"),
    ('Q', refusal(12, b'S', 0), "R"),
    ('Q', refusal(5, b'F', 1), "DL"),
    ('Q', refusal(5, b'F', 3), "DL"),
    ('Q', refusal(11, b'F', 3), "DL"),
    ('Q', refusal(6, b'F', 1), "DL"),
    ('Q', refusal(6, b'F', 3), "DL"),
    ('Q', refusal(7, b'F', 2), "DL"),
    ('Q', refusal(7, b'F', 4), "DL"),
    ('Q', refusal(9, b'B', 0), "DL"),
    ('V', refusal(14, b'S', 0), "DLH"),
    ('V', refusal(5, b'F', 1), "R"),
    ('V', refusal(5, b'F', 3), "R"),
    ('V', refusal(11, b'F', 3), "R"),
    ('V', refusal(6, b'F', 1), "R"),
    ('V', refusal(6, b'F', 3), "R"),
    ('V', refusal(7, b'F', 2), "R"),
    ('V', refusal(7, b'F', 4), "R"),
    ('W', refusal(13, b'S', 0), "DH"),
    ('T', refusal(16, b'S', 5), "DLRH"),
];

fn refused() -> Vec<Sight> {
    let mut sights = Vec::new();
    for &(letter, refusal, phases) in REFUSED {
        sights.extend(phases.chars().map(|phase| Sight::Refused {
            letter,
            refusal,
            phase,
        }));
    }
    sights
}

const REASONS: [Reason; 14] = [
    Reason::PriceOf0,
    Reason::PriceOffTick,
    Reason::PriceAboveLimit1,
    Reason::PriceBelowLimit1,
    Reason::PiecesOf0,
    Reason::MoreThanMostPieces,
    Reason::TurnoverAtReference,
    Reason::TurnoverAtPrice,
    Reason::SecondsBelowClock,
    Reason::SecondsAboveLast,
    Reason::ReplyTimeOf0,
    Reason::ReplyTimeTooLong,
    Reason::TicketOfAnother,
    Reason::TicketOfNoOrder,
];

const EDGES: [Edge; 16] = [
    Edge::PriceAtLimit1Above,
    Edge::PriceAtLimit1Below,
    Edge::TradeAtLimit2Above,
    Edge::TradeAtLimit2Below,
    Edge::PiecesAtTurnover,
    Edge::MostPieces,
    Edge::PairAtGoverningBid,
    Edge::PairAtGoverningAsk,
    Edge::ClockAtDue,
    Edge::ClockJustBeforeDue,
    Edge::ClockAtEndOfHalt,
    Edge::ClockJustBeforeEndOfHalt,
    Edge::ClockAtPresentSecond,
    Edge::ClockAtLastSecond,
    Edge::DueAfterLastSecond,
    Edge::HaltOverAfterLastSecond,
];

/// Two tests that cannot both fail: a book has one phase, and a halt takes an order out.
const EXCLUSIVE: &[(u64, u64)] = &[(3, 4), (3, 8), (3, 12)];

/// Pairs of tests that both fail, by letter, in the order of the table above. With 9, which needs an
/// input of its own, only 7 and 8 are tried; 19 is no test of a call.
fn tested_before() -> Vec<Sight> {
    let mut sights = Vec::new();
    for (place, &(letter, first, _)) in REFUSED.iter().enumerate() {
        for &(other_letter, later, _) in &REFUSED[place + 1..] {
            let is_pair = letter == other_letter && can_both_fail(first, later);
            if is_pair {
                sights.push(Sight::TestedBefore {
                    letter,
                    first,
                    later,
                });
            }
        }
    }
    sights
}

fn can_both_fail(first: Refusal, later: Refusal) -> bool {
    let numbers = (first.number, later.number);
    let is_tried = later.number != 9 || matches!(first.number, 7 | 8);
    is_tried && first.number != 19 && later.number != 19 && !EXCLUSIVE.contains(&numbers)
}

/// Letter, phase before, and the phases that can follow. A close in RFE declines first.
const MOVED: &[(char, char, &str)] = &[
    ('O', '-', "D"),
    ('E', 'L', "DLRH"),
    ('E', 'R', "R"),
    ('C', 'D', "D"),
    ('C', 'L', "L"),
    ('C', 'R', "LRH"),
    ('C', 'H', "H"),
    ('Q', 'D', "DLH"),
    ('Q', 'L', "DLH"),
    ('V', 'R', "DLH"),
    ('T', 'D', "D"),
    ('T', 'L', "L"),
    ('T', 'R', "DRH"),
    ('T', 'H', "DH"),
    ('W', 'L', "D"),
    ('W', 'R', "DH"),
    ('D', 'D', "D"),
    ('D', 'L', "L"),
    ('D', 'R', "DH"),
    ('D', 'H', "H"),
    ('R', 'D', "D"),
    ('R', 'L', "L"),
    ('R', 'R', "R"),
    ('R', 'H', "H"),
    ('X', 'D', "-"),
    ('X', 'L', "-"),
    ('X', 'R', "DH"),
    ('X', 'H', "-"),
];

fn moved() -> Vec<Sight> {
    let mut sights = Vec::new();
    for &(letter, from, phases_after) in MOVED {
        let moves = |to| Event::Moves { from, to };
        let events = phases_after.chars().map(moves);
        sights.extend(events.map(|event| Sight::Call { letter, event }));
    }
    sights
}

/// Part of the cross, parties, and the letters.
const TRADED: &[(Part, Parties, &str)] = &[
    (Part::StepA, Parties::QuoteBuys, "EQV"),
    (Part::StepA, Parties::QuoteSells, "EQV"),
    (Part::StepA, Parties::Orders, "EQV"),
    (Part::StepB, Parties::Orders, "EQVCWDTX"),
];

fn traded() -> Vec<Sight> {
    let mut sights = Vec::new();
    for &(part, parties, letters) in TRADED {
        let event = Event::Trades { part, parties };
        let calls = letters.chars().map(|letter| Sight::Call { letter, event });
        sights.extend(calls);
    }
    sights
}

/// Cause, part of the call, and the letters.
const PUT_OUT: &[(u64, Part, &str)] = &[
    (1, Part::BeforeCross, "C"),
    (2, Part::StepB, "EQVWDTX"),
    (3, Part::Tail, "EVCWDTX"),
    (3, Part::TailAfterHalt, "VCWDTX"),
    (4, Part::StepA, "EQV"),
    (4, Part::StepB, "EQVCWDTX"),
];

fn put_out() -> Vec<Sight> {
    let mut sights = Vec::new();
    for &(cause, part, letters) in PUT_OUT {
        let event = Event::PutsOut { cause, part };
        let calls = letters.chars().map(|letter| Sight::Call { letter, event });
        sights.extend(calls);
    }
    sights
}

#[cfg(test)]
mod tests {
    use super::*;
    use std::collections::BTreeSet;

    #[test]
    fn nothing_is_listed_twice() {
        let listed = reachable();
        let different: BTreeSet<Sight> = listed.iter().copied().collect();
        assert_eq!(listed.len(), different.len());
    }
}
