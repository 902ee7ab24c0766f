//! Refusals, each a finished record.

use super::digits::raw_of;
use super::input::RECORD;

/// A whole N record, ready to be copied.
#[repr(align(8))]
pub struct Refusal(pub [u8; RECORD]);

const fn refusal(layer: u8, number: u8, field: u8) -> Refusal {
    let mut record = [b'0'; RECORD];
    record[0] = b'N';
    record[1] = layer;
    let digits = raw_of(number as u32).to_le_bytes();
    record[5] = digits[6];
    record[6] = digits[7];
    record[14] = b'0' + field;
    record[39] = b'\n';
    Refusal(record)
}

pub static SENDER: Refusal = refusal(b'F', 2, 5);
pub static HALTED: Refusal = refusal(b'S', 3, 0);
pub static DARK: Refusal = refusal(b'S', 4, 0);
pub static PRICE: Refusal = refusal(b'F', 5, 1);
pub static ASK: Refusal = refusal(b'F', 5, 3);
pub static PRICE_LIMIT: Refusal = refusal(b'F', 6, 1);
pub static ASK_LIMIT: Refusal = refusal(b'F', 6, 3);
pub static PIECES: Refusal = refusal(b'F', 7, 2);
pub static ASK_PIECES: Refusal = refusal(b'F', 7, 4);
pub static FULL: Refusal = refusal(b'B', 8, 0);
pub static NUMBERS: Refusal = refusal(b'B', 9, 0);
pub static TICKET: Refusal = refusal(b'B', 10, 0);
pub static SPREAD: Refusal = refusal(b'F', 11, 3);
pub static IN_RFE: Refusal = refusal(b'S', 12, 0);
pub static NO_QUOTE: Refusal = refusal(b'S', 13, 0);
pub static SUMMONS: Refusal = refusal(b'S', 14, 0);
pub static REFERENCE: Refusal = refusal(b'S', 15, 1);
pub static REPLY_TIME: Refusal = refusal(b'S', 15, 5);
pub static SECONDS: Refusal = refusal(b'S', 16, 5);
pub static UNREADABLE: Refusal = refusal(b'P', 18, 0);
pub static DAY: Refusal = refusal(b'P', 19, 0);
