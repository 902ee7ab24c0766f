//! Inputs that random days would not reach.

use super::record::{bare, record, Record};
use crate::engine::book::{LAST_NUMBER, PLACES};

const REFERENCE: u64 = 100_000;
const BID: u64 = 99_000;
const ASK: u64 = 101_000;

fn open(ranking: u64) -> Record {
    record(b'O', b'L', 10, [REFERENCE, ranking, 0, 0])
}

fn quote(letter: u8, mark: u8, pieces: u64) -> Record {
    record(letter, mark, 0, [BID, pieces, ASK, pieces])
}

/// A day that gives out every number, and then goes on.
pub fn used_up() -> Vec<u8> {
    let buy = record(b'E', b'B', 1, [ASK, 1, 0, 0]);
    let sell_far_off = record(b'E', b'S', 1, [ASK + 9_000, 1, 0, 0]);
    // A quote, orders that fill all places but one, and an order that opens an RFE.
    let numbers_at_the_end = 1 + PLACES as u64;
    let mut records = vec![open(1)];
    for _ in 0..(LAST_NUMBER - numbers_at_the_end) / 2 {
        records.push(quote(b'Q', b'P', 2));
        records.push(buy);
    }
    // One more, since an odd count of numbers was left for these pairs.
    records.push(quote(b'Q', b'P', 2));
    records.push(quote(b'Q', b'F', 2));
    records.extend(vec![sell_far_off; PLACES - 1]);
    records.push(buy);
    records.extend(after_the_last_number());
    // A new day has its numbers again.
    records.push(open(2));
    records.push(quote(b'Q', b'P', 2));
    records.push(buy);
    records.concat()
}

/// With a full table in RFE: refusals in each phase, and a validation, which needs no number.
fn after_the_last_number() -> Vec<Record> {
    let buy = record(b'E', b'B', 1, [ASK, 1, 0, 0]);
    vec![
        buy,
        record(b'C', b'-', 1, [LAST_NUMBER - 1, 0, 0, 0]),
        buy,
        quote(b'V', b'F', 9),
        buy,
        record(b'E', b'B', 1, [ASK, 0, 0, 0]),
        quote(b'Q', b'P', 2),
        record(b'Q', b'P', 0, [BID, 0, ASK, 2]),
        record(b'Q', b'P', 0, [BID, 2, ASK, 0]),
        bare(b'W'),
        quote(b'Q', b'P', 2),
        bare(b'X'),
    ]
}

/// Calls with as many slips as a list must hold: every order trades, the last of them uses up the
/// quote, and what it has left goes out.
pub fn most_slips() -> Vec<u8> {
    let mut records = Vec::new();
    for (mark, price) in [(b'b', ASK), (b's', BID)] {
        for ranking in [1, 2] {
            records.push(open(ranking));
            records.push(quote(b'Q', b'F', 500));
            let order = record(b'E', mark, 7, [price, 2, 0, 0]);
            records.extend(vec![order; PLACES + 1]);
            records.push(quote(b'V', b'F', 2 * PLACES as u64 - 1));
            records.push(bare(b'X'));
        }
    }
    records.concat()
}
