//! Eight decimal digits at a time in one 64-bit word.
//!
//! A word is read little-endian, so the highest digit is its lowest byte.
//! *Raw* words hold ASCII digits; *bare* words hold the digits' values.

/// Eight ASCII zeros.
pub const ZEROS: u64 = 0x3030_3030_3030_3030;

/// The bare word of a raw one.
#[inline(always)]
pub const fn bare(raw: u64) -> u64 {
    raw ^ ZEROS
}

/// The number that eight bare digits tell.
#[inline(always)]
pub const fn value(bare: u64) -> u32 {
    let pairs = bare.wrapping_mul(10).wrapping_add(bare >> 8);
    let upper = (pairs & 0x0000_00FF_0000_00FF).wrapping_mul(0x000F_4240_0000_0064);
    let lower = ((pairs >> 16) & 0x0000_00FF_0000_00FF).wrapping_mul(0x0000_2710_0000_0001);
    (upper.wrapping_add(lower) >> 32) as u32
}

/// The raw digits of a number below 100,000,000.
#[inline(always)]
pub const fn raw_of(number: u32) -> u64 {
    let upper = number / 10_000;
    let halves = upper as u64 | ((number - upper * 10_000) as u64) << 32;
    let hundreds = ((halves * 10_486) >> 20) & 0x0000_007F_0000_007F;
    let pairs = hundreds | (halves - hundreds * 100) << 16;
    let tens = ((pairs * 103) >> 10) & 0x000F_000F_000F_000F;
    (tens | (pairs - tens * 10) << 8) | ZEROS
}

/// The numbers 1, 2, 3, … as raw digits, without any division.
///
/// Each byte holds its digit plus 246, so that adding one carries out of a 9 by itself.
#[derive(Clone, Copy)]
pub struct Count(u64);

impl Count {
    const LIFT: u64 = 0xF6F6_F6F6_F6F6_F6F6;

    /// Stands at zero.
    pub const fn new() -> Self {
        Count(Self::LIFT)
    }

    #[inline(always)]
    pub fn step(&mut self) -> u64 {
        let carried = self.0.wrapping_add(1);
        let wrapped = (!carried >> 7) & 0x0101_0101_0101_0101;
        self.0 = carried.wrapping_add(wrapped.wrapping_mul(0xF6));
        self.0.wrapping_sub(Self::LIFT - ZEROS).swap_bytes()
    }
}

#[cfg(test)]
mod tests {
    use super::*;

    #[test]
    fn values_and_digits_are_inverse() {
        for number in (0..100_000_000)
            .step_by(997)
            .chain([99_999_999, 10_000_000, 1])
        {
            let text = format!("{number:08}");
            let raw = u64::from_le_bytes(text.as_bytes().try_into().unwrap());
            assert_eq!(raw_of(number), raw);
            assert_eq!(value(bare(raw)), number);
        }
        for number in 0..10_000 {
            assert_eq!(value(bare(raw_of(number))), number);
        }
    }

    #[test]
    fn counts_up() {
        let mut count = Count::new();
        for number in 1..=1_000_000 {
            assert_eq!(count.step(), raw_of(number));
        }
    }
}
