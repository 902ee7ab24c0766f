//! Ticks, limits and allowed pieces (RULES.md, sections 2, 4 and 5).

use super::band::BandTable;

pub const HIGHEST_PRICE: u64 = 99_999_999;
pub const MOST_PIECES: u64 = 10_000_000;
pub const POINTS_IN_A_UNIT: u64 = 10_000;

const TICKS: BandTable<u64> = BandTable {
    rows: &[(50, 1), (1_000, 5), (10_000, 10), (30_000, 50)],
    above: 100,
};

/// The tick of a price's own band.
pub fn tick(price: u64) -> u64 {
    TICKS.find(price)
}

pub fn is_in_range(price: u64) -> bool {
    (1..=HIGHEST_PRICE).contains(&price)
}

pub fn is_on_tick(price: u64) -> bool {
    price.is_multiple_of(tick(price))
}

/// Whether a price lies within a limit of so many percent around a base.
pub fn is_within(price: u64, percent: u64, base: u64) -> bool {
    price.abs_diff(base) * 100 <= percent * base
}

/// Whether so many pieces are allowed at a price, the turnover being in units of the currency.
pub fn are_allowed(pieces: u64, price: u64, reference: u64, turnover: u64) -> bool {
    let turnover_in_points = turnover * POINTS_IN_A_UNIT;
    (1..=MOST_PIECES).contains(&pieces)
        && pieces * reference <= turnover_in_points
        && pieces * price <= turnover_in_points
}

#[cfg(test)]
mod tests {
    use super::*;

    #[test]
    fn ticks_at_the_edges_of_bands() {
        let edges = [
            (50, true),
            (51, false),
            (55, true),
            (1_000, true),
            (1_005, false),
            (1_010, true),
        ];
        for (price, on_tick) in edges {
            assert_eq!(is_on_tick(price), on_tick, "price {price}");
        }
    }

    #[test]
    fn limits_around_a_hundred_thousand() {
        assert!(is_within(200_000, 100, 100_000));
        assert!(!is_within(200_100, 100, 100_000));
        assert!(is_within(150_000, 50, 100_000));
        assert!(!is_within(150_100, 50, 100_000));
    }

    #[test]
    fn no_price_below_the_base_is_beyond_a_limit_of_a_hundred() {
        assert!(is_within(1, 100, 99_999_999));
    }

    #[test]
    fn pieces_at_a_hundred_thousand_on_the_leveraged_sheet() {
        assert!(are_allowed(500_000, 100_000, 100_000, 5_000_000));
        assert!(!are_allowed(500_001, 100_000, 100_000, 5_000_000));
        assert!(!are_allowed(0, 100_000, 100_000, 5_000_000));
    }
}
