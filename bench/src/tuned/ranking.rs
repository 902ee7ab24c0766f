//! The two rankings, chosen once a day and compiled apart.
//!
//! A *key* is one word that holds all that orders of one side rank by, the higher key ahead: from
//! the top price, pieces (by size only), and how many numbers come after the order's own.

use super::rows::NUMBERS;

const NUMBER_BITS: u32 = 20;
const NUMBER_MASK: u64 = (1 << NUMBER_BITS) - 1;

pub trait Ranking {
    /// A trade can alter an order's rank.
    const BY_SIZE: bool;
}

/// Ranking 1: better price, then lower number.
pub struct ByTime;

/// Ranking 2: better price, then more pieces left, then lower number.
pub struct BySize;

impl Ranking for ByTime {
    const BY_SIZE: bool = false;
}

impl Ranking for BySize {
    const BY_SIZE: bool = true;
}

/// How the keys of a day are laid out. Prices count from the lowest signed one that the day
/// allows, and pieces take as many bits as the most allowed ones need; together these are at most
/// 40 bits on every sheet, since the higher the prices the fewer the pieces.
#[derive(Clone, Copy)]
pub struct Layout {
    lowest: [i32; 2],
    price_shift: u32,
}

impl Layout {
    pub fn new<R: Ranking>(lowest: u32, highest: u32, most_pieces: u32) -> Self {
        let pieces_bits = if R::BY_SIZE {
            u32::BITS - most_pieces.leading_zeros()
        } else {
            0
        };
        let price_bits = u32::BITS - (highest - lowest).leading_zeros();
        assert!(price_bits + pieces_bits + NUMBER_BITS < u64::BITS);
        const { assert!(NUMBERS as u64 <= NUMBER_MASK) };
        Layout {
            lowest: [lowest as i32, -(highest as i32)],
            price_shift: NUMBER_BITS + pieces_bits,
        }
    }

    #[inline(always)]
    pub fn key<R: Ranking>(&self, side: usize, signed: i32, pieces: u32, number: u32) -> u64 {
        let price = self.price_part(side, signed);
        let size = if R::BY_SIZE {
            u64::from(pieces) << NUMBER_BITS
        } else {
            0
        };
        price | size | (NUMBER_MASK - u64::from(number))
    }

    /// The lowest key of any order at this price.
    #[inline(always)]
    pub fn price_part(&self, side: usize, signed: i32) -> u64 {
        let above_lowest = (signed - self.lowest[side & 1]) as u64;
        above_lowest << self.price_shift
    }

    /// The key after trading, for ranking by size.
    #[inline(always)]
    pub fn lowered(key: u64, pieces: u32) -> u64 {
        key - (u64::from(pieces) << NUMBER_BITS)
    }
}

/// The number in a key.
#[inline(always)]
pub fn number_of(key: u64) -> u32 {
    (NUMBER_MASK - (key & NUMBER_MASK)) as u32
}

#[cfg(test)]
mod tests {
    use super::*;
    use crate::tuned::figures::{Figures, Sheet, PRICE_MAX};

    /// Making a layout panics if a key has no room; the edges of all bands, and all the way up.
    #[test]
    fn keys_have_room_at_every_reference() {
        let edges = [
            50, 1_000, 10_000, 30_000, 300_000, 700_000, 900_000, 3_000_000, PRICE_MAX,
        ];
        let near_edges = edges.iter().flat_map(|edge| [edge - 1, *edge, edge + 1]);
        let along = (1..PRICE_MAX).step_by(1_009).chain(1..40_000);
        for reference in near_edges
            .chain(along)
            .filter(|reference| *reference <= PRICE_MAX)
        {
            for sheet in [Sheet::Leveraged, Sheet::Investment] {
                let figures = Figures::new(sheet, reference);
                let prices = figures.prices();
                Layout::new::<BySize>(prices.low, prices.high, figures.most_pieces());
            }
        }
    }

    #[test]
    fn higher_keys_rank_ahead() {
        let layout = Layout::new::<BySize>(1, 200_000, 500_000);
        let key = |side, signed, pieces, number| layout.key::<BySize>(side, signed, pieces, number);
        assert!(key(0, 100, 1, 9) > key(0, 99, 500_000, 1));
        assert!(key(1, -99, 1, 9) > key(1, -100, 500_000, 1));
        assert!(key(0, 100, 2, 9) > key(0, 100, 1, 1));
        assert!(key(0, 100, 2, 8) > key(0, 100, 2, 9));
        assert_eq!(number_of(key(0, 100, 2, 1_000_000)), 1_000_000);
        assert_eq!(Layout::lowered(key(0, 100, 7, 3), 5), key(0, 100, 2, 3));
    }
}
