//! Input records in bytes.

use crate::engine::RECORD_BYTES;

pub type Record = [u8; RECORD_BYTES];

/// Numbers that are too long for their place lose their high digits.
pub fn record(letter: u8, mark: u8, small: u64, fields: [u64; 4]) -> Record {
    let mut bytes = [b'\n'; RECORD_BYTES];
    bytes[0] = letter;
    bytes[1] = mark;
    put(&mut bytes[2..7], small);
    for (place, field) in fields.into_iter().enumerate() {
        let start = 7 + 8 * place;
        put(&mut bytes[start..start + 8], field);
    }
    bytes
}

/// A record that uses neither mark nor digits.
pub fn bare(letter: u8) -> Record {
    record(letter, b'-', 0, [0; 4])
}

/// A record of a letter that can be read.
pub fn sample(letter: u8) -> Record {
    match letter {
        b'O' => record(b'O', b'L', 10, [100_000, 1, 0, 0]),
        b'E' => record(b'E', b'B', 1, [100_000, 10, 0, 0]),
        b'C' => record(b'C', b'-', 1, [2, 0, 0, 0]),
        b'Q' | b'V' => record(letter, b'P', 0, [99_000, 10, 101_000, 10]),
        b'T' => record(b'T', b'-', 5, [0; 4]),
        _ => bare(letter),
    }
}

fn put(digits: &mut [u8], number: u64) {
    let mut rest = number;
    for digit in digits.iter_mut().rev() {
        *digit = b'0' + (rest % 10) as u8;
        rest /= 10;
    }
}
