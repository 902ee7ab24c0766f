//! The two sheets that a record can name (RULES.md, section 3).

use super::band::BandTable;

#[derive(Clone, Copy, Debug, PartialEq, Eq)]
pub enum Sheet {
    Leveraged,
    Investment,
}

/// One row of the table of limits, in percent.
#[derive(Clone, Copy)]
struct Row {
    limit_1: u64,
    limit_2_leveraged: u64,
    limit_2_investment: u64,
}

const fn row(limit_1: u64, limit_2_leveraged: u64, limit_2_investment: u64) -> Row {
    Row {
        limit_1,
        limit_2_leveraged,
        limit_2_investment,
    }
}

const LIMITS: BandTable<Row> = BandTable {
    rows: &[
        (50, row(2_000, 800, 400)),
        (1_000, row(600, 300, 150)),
        (10_000, row(300, 150, 75)),
        (30_000, row(200, 100, 50)),
        (300_000, row(100, 50, 25)),
        (700_000, row(60, 20, 10)),
        (900_000, row(30, 12, 6)),
        (3_000_000, row(20, 10, 5)),
    ],
    above: row(15, 6, 3),
};

impl Sheet {
    pub fn limit_1(self, reference: u64) -> u64 {
        LIMITS.find(reference).limit_1
    }

    pub fn limit_2(self, reference: u64) -> u64 {
        let row = LIMITS.find(reference);
        match self {
            Sheet::Leveraged => row.limit_2_leveraged,
            Sheet::Investment => row.limit_2_investment,
        }
    }

    /// The turnover in whole units of the currency, the same at every reference.
    pub fn turnover(self) -> u64 {
        match self {
            Sheet::Leveraged => 5_000_000,
            Sheet::Investment => 10_000_000,
        }
    }
}

#[cfg(test)]
mod tests {
    use super::*;

    #[test]
    fn a_bound_belongs_to_its_own_row() {
        assert_eq!(Sheet::Leveraged.limit_1(50), 2_000);
        assert_eq!(Sheet::Leveraged.limit_1(51), 600);
        assert_eq!(Sheet::Leveraged.limit_2(3_000_000), 10);
        assert_eq!(Sheet::Investment.limit_2(3_000_000), 5);
        assert_eq!(Sheet::Investment.limit_2(3_000_001), 3);
    }

    #[test]
    fn numbers_at_a_hundred_thousand() {
        assert_eq!(Sheet::Leveraged.limit_1(100_000), 100);
        assert_eq!(Sheet::Leveraged.limit_2(100_000), 50);
        assert_eq!(Sheet::Leveraged.turnover(), 5_000_000);
        assert_eq!(Sheet::Investment.turnover(), 10_000_000);
    }
}
