//! Execute-and-cancel orders that find nothing, beside 127 standing orders.

use super::script::{Kind, Ranking, Script, Side, Terms};

const REFERENCE: u32 = 100_000;
const STANDING: u32 = 127;

pub fn day(enters: u32) -> Vec<u8> {
    let mut script = Script::new();
    script.open(REFERENCE, 10, Ranking::Time);
    script.quote(Terms {
        bid: 99_000,
        bid_pieces: 500,
        ask: 101_000,
        ask_pieces: 500,
        flagged: false,
    });
    for order in 0..STANDING {
        let away = 100 * (order / 2 + 1);
        let (side, price) = match order % 2 {
            0 => (Side::Buy, 99_000 - away),
            _ => (Side::Sell, 101_000 + away),
        };
        script.enter(1 + order, side, Kind::Plain, price, 100);
    }
    for order in 0..enters {
        let side = if order % 2 == 0 {
            Side::Buy
        } else {
            Side::Sell
        };
        script.enter(500, side, Kind::Brief, REFERENCE, 1 + order % 1_000);
    }
    script.close();
    script.into_bytes()
}
