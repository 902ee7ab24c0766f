//! One side of the book: for each row one word that ranks its order, and the highest of them.
//!
//! Prices are *signed*: a buy's price as it is, a sell's negated, so that more is better on both
//! sides, and a buy and a sell meet exactly if their signed prices add up to zero or more.

use super::highest::highest;
use super::rows::ROWS;

/// Signed price of nothing: adds up with no price to zero or more.
pub const NOWHERE: i32 = i32::MIN / 4;

/// The key of no order.
const NO_KEY: u64 = 0;

const BLOCK: usize = 16;
const BLOCKS: usize = ROWS / BLOCK;

/// The orders of a side, each in the place of its row, and the highest key of each block of rows.
pub struct Side {
    keys: [[u64; BLOCK]; BLOCKS],
    tops: [u64; BLOCKS],
    best: Best,
}

/// The first-ranked order, or `NOBODY`.
#[derive(Clone, Copy)]
pub struct Best {
    pub key: u64,
    pub signed: i32,
    pub row: u8,
}

impl Best {
    const NOBODY: Best = Best {
        key: NO_KEY,
        signed: NOWHERE,
        row: 0,
    };
}

impl Side {
    pub const fn new() -> Self {
        Side {
            keys: [[NO_KEY; BLOCK]; BLOCKS],
            tops: [NO_KEY; BLOCKS],
            best: Best::NOBODY,
        }
    }

    #[inline(always)]
    pub fn best(&self) -> Best {
        self.best
    }

    #[inline(always)]
    pub fn key(&self, row: u8) -> u64 {
        let (block, place) = place_of(row);
        self.keys[block][place]
    }

    #[inline(always)]
    pub fn insert(&mut self, order: Best) {
        let (block, place) = place_of(order.row);
        self.keys[block][place] = order.key;
        self.tops[block] = self.tops[block].max(order.key);
        if order.key > self.best.key {
            self.best = order;
        }
    }

    /// Takes an order out. True if it was the best, so that `search` must follow.
    #[inline(always)]
    #[must_use]
    pub fn remove(&mut self, row: u8) -> bool {
        self.lower(row, NO_KEY)
    }

    /// Lowers an order's key. True if it was the best, so that `search` must follow.
    #[inline(always)]
    #[must_use]
    pub fn lower(&mut self, row: u8, key: u64) -> bool {
        let (block, place) = place_of(row);
        let before = self.keys[block][place];
        self.keys[block][place] = key;
        if before == self.tops[block] {
            self.tops[block] = highest(&self.keys[block]);
        }
        before == self.best.key
    }

    /// Finds the best anew; `told` gives row and signed price of a key.
    #[inline(always)]
    pub fn search(&mut self, told: impl Fn(u64) -> (u8, i32)) {
        self.best = match highest(&self.tops) {
            NO_KEY => Best::NOBODY,
            key => {
                let (row, signed) = told(key);
                Best { key, signed, row }
            }
        };
    }

    /// The highest key below `high` that passes, or 0. One that is below `low` need not be found.
    #[inline(always)]
    pub fn highest_of(&self, low: u64, high: u64, passes: impl Fn(u64) -> bool) -> u64 {
        let mut highest = NO_KEY;
        for (keys, &top) in self.keys.iter().zip(&self.tops) {
            if top < low {
                continue;
            }
            for &key in keys {
                let counted = if key < high && passes(key) {
                    key
                } else {
                    NO_KEY
                };
                highest = highest.max(counted);
            }
        }
        highest
    }
}

#[inline(always)]
fn place_of(row: u8) -> (usize, usize) {
    (row as usize / BLOCK % BLOCKS, row as usize % BLOCK)
}
