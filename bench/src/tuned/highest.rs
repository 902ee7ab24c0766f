//! The highest of some keys.

/// The highest of `N` keys, `N` being a power of two, in rounds of independent comparisons.
///
/// Left to words on purpose: a key that was just written would stop a wider load for longer than
/// the comparisons take.
#[inline(always)]
pub fn highest<const N: usize>(keys: &[u64; N]) -> u64 {
    let mut left = *keys;
    let mut half = N / 2;
    while half > 0 {
        for place in 0..half {
            let (one, other) = (left[place], left[place + half]);
            left[place] = if one > other { one } else { other };
        }
        half /= 2;
    }
    left[0]
}

#[cfg(test)]
mod tests {
    use super::highest;

    #[test]
    fn finds_the_highest_at_every_place() {
        for place in 0..16 {
            let mut keys: [u64; 16] = std::array::from_fn(|key| key as u64);
            keys[place] = 99;
            keys[(place + 1) % 16] = 0;
            assert_eq!(highest(&keys), 99);
        }
        assert_eq!(highest(&[0; 16]), 0);
    }
}
