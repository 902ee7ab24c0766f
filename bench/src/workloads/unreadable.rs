//! Records that cannot be read, each for one reason: what reading alone costs.

use super::script::{record, Ranking, Script};

pub fn day(records: usize) -> Vec<u8> {
    let mut script = Script::new();
    script.open(100_000, 10, Ranking::Time);
    for place in 0..records {
        script.raw(spoiled(place));
    }
    script.close();
    script.into_bytes()
}

fn spoiled(place: usize) -> [u8; 40] {
    let mut record = match place % 4 {
        0 => record(b"EB", 8, [101_000, 300, 0, 0]),
        1 => record(b"QF", 0, [99_000, 500, 101_000, 500]),
        2 => record(b"C-", 8, [12, 0, 0, 0]),
        _ => record(b"T-", 10, [0; 4]),
    };
    let (byte, wrong) = match place / 4 % 5 {
        0 => (0, b'e'),
        1 => (1, b'?'),
        2 => (9, b'+'),
        3 => (38, b' '),
        _ => (39, b'0'),
    };
    record[byte] = wrong;
    record
}
