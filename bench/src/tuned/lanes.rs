//! Sixteen bytes at a time: whether digits are where they must be, and what they tell.

use super::input::{Piece, RECORD};

/// For each byte of a record how far above the byte `0` it may be: 9 where a digit is used, 0
/// where one is not.
///
/// Laid out as it is compared, in three lanes of sixteen, the last of which overlaps the second.
#[repr(C, align(16))]
pub struct Form([[u8; LANE]; 3]);

const LANE: usize = 16;
const STARTS: [usize; 3] = [0, LANE, RECORD - LANE];

impl Form {
    pub const fn new(highest: Piece) -> Self {
        let mut lanes = [[0; LANE]; 3];
        let mut byte = 0;
        while byte < LANE {
            lanes[0][byte] = highest[STARTS[0] + byte];
            lanes[1][byte] = highest[STARTS[1] + byte];
            lanes[2][byte] = highest[STARTS[2] + byte];
            byte += 1;
        }
        Form(lanes)
    }
}

pub use unit::{fits, values};

/// With the vector instructions that every x86_64 has.
#[cfg(target_arch = "x86_64")]
mod unit {
    use super::{Form, Piece, LANE, STARTS};
    use std::arch::x86_64::*;

    /// No byte of the record is above what the form allows.
    #[inline(always)]
    pub fn fits(piece: &Piece, form: &Form) -> bool {
        // SAFETY: every lane lies within the record, and SSE2 is part of x86_64.
        unsafe {
            let excess = |lane: usize| {
                let bytes = _mm_loadu_si128(piece.as_ptr().add(STARTS[lane]).cast());
                let highest = _mm_load_si128(form.0[lane].as_ptr().cast());
                _mm_subs_epu8(_mm_sub_epi8(bytes, _mm_set1_epi8(b'0' as i8)), highest)
            };
            let any = _mm_or_si128(_mm_or_si128(excess(0), excess(1)), excess(2));
            _mm_movemask_epi8(_mm_cmpeq_epi8(any, _mm_setzero_si128())) == 0xFFFF
        }
    }

    /// The two numbers of eight digits each.
    #[inline(always)]
    pub fn values(digits: [u8; LANE]) -> [u32; 2] {
        // SAFETY: SSE2 is part of x86_64.
        let both = unsafe {
            let ascii = _mm_loadu_si128(digits.as_ptr().cast());
            let bare = _mm_sub_epi8(ascii, _mm_set1_epi8(b'0' as i8));
            let tens = _mm_mullo_epi16(
                _mm_and_si128(bare, _mm_set1_epi16(0xFF)),
                _mm_set1_epi16(10),
            );
            let pairs = _mm_add_epi16(tens, _mm_srli_epi16::<8>(bare));
            let fours = _mm_madd_epi16(pairs, _mm_set1_epi32(0x0001_0064));
            let words = _mm_packs_epi32(fours, fours);
            let eights = _mm_madd_epi16(words, _mm_set1_epi32(0x0001_2710));
            _mm_cvtsi128_si64(eights) as u64
        };
        [both as u32, (both >> 32) as u32]
    }
}

#[cfg(not(target_arch = "x86_64"))]
mod unit {
    use super::{Form, Piece, LANE, STARTS};
    use crate::tuned::digits::{bare, value};

    /// No byte of the record is above what the form allows.
    pub fn fits(piece: &Piece, form: &Form) -> bool {
        let lanes = STARTS.iter().zip(&form.0);
        lanes
            .flat_map(|(&start, highest)| piece[start..].iter().zip(highest))
            .all(|(byte, highest)| byte.wrapping_sub(b'0') <= *highest)
    }

    /// The two numbers of eight digits each.
    pub fn values(digits: [u8; LANE]) -> [u32; 2] {
        let (words, _) = digits.as_chunks::<8>();
        [words[0], words[1]].map(|word| value(bare(u64::from_le_bytes(word))))
    }
}

#[cfg(test)]
mod tests {
    use super::values;

    #[test]
    fn tells_two_numbers() {
        assert_eq!(values(*b"1234567890817263"), [12_345_678, 90_817_263]);
        assert_eq!(values(*b"9999999900000000"), [99_999_999, 0]);
    }
}
