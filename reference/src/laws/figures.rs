//! The figures of the rules once more, as the laws need them.

use std::cmp::max;

pub struct Limits {
    pub limit_1: u64,
    pub limit_2: u64,
    pub turnover_in_points: u64,
}

/// Upper bound of the reference; Limit 1; Limit 2 leveraged; Limit 2 investment.
const ROWS: [[u64; 4]; 9] = [
    [50, 2000, 800, 400],
    [1_000, 600, 300, 150],
    [10_000, 300, 150, 75],
    [30_000, 200, 100, 50],
    [300_000, 100, 50, 25],
    [700_000, 60, 20, 10],
    [900_000, 30, 12, 6],
    [3_000_000, 20, 10, 5],
    [u64::MAX, 15, 6, 3],
];

/// The row of the table of limits, counted from 0.
pub fn row_of(reference: u64) -> usize {
    ROWS.iter().take_while(|row| row[0] < reference).count()
}

pub fn limits(is_investment: bool, reference: u64) -> Limits {
    let [_, limit_1, leveraged, investment] = ROWS[row_of(reference)];
    Limits {
        limit_1,
        limit_2: if is_investment { investment } else { leveraged },
        turnover_in_points: if is_investment {
            100_000_000_000
        } else {
            50_000_000_000
        },
    }
}

pub fn is_price(price: u64) -> bool {
    let tick = match price {
        1..=50 => 1,
        51..=1_000 => 5,
        1_001..=10_000 => 10,
        10_001..=30_000 => 50,
        30_001..=99_999_999 => 100,
        _ => return false,
    };
    price.is_multiple_of(tick)
}

/// |p - s| * 100 <= L * s, with the two sides of the difference apart.
pub fn is_within(price: u64, percent: u64, base: u64) -> bool {
    100 * price <= (100 + percent) * base && 100 * base <= percent * base + 100 * price
}

pub fn are_allowed(pieces: u64, price: u64, reference: u64, turnover_in_points: u64) -> bool {
    pieces != 0 && pieces <= 10_000_000 && pieces * max(price, reference) <= turnover_in_points
}
