//! The one lookup in band tables (RULES.md, section 2).

/// Rows of an upper bound and a value, the bounds rising, and the value above the last bound.
pub struct BandTable<V: 'static> {
    pub rows: &'static [(u64, V)],
    pub above: V,
}

impl<V: Copy> BandTable<V> {
    /// The value of the first row whose bound is at or above the number.
    pub fn find(&self, number: u64) -> V {
        for &(up_to, value) in self.rows {
            if number <= up_to {
                return value;
            }
        }
        self.above
    }
}
