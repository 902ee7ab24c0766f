//! A full book worked hard: cancel and enter, enters with no place left, quotes that cross many.

use super::chance::Chance;
use super::script::{Kind, Ranking, Script, Side, Terms};

const REFERENCE: u32 = 100_000;
const TICK: u32 = 100;
const PLACES: usize = 128;

pub fn day(records: usize, ranking: Ranking) -> Vec<u8> {
    let (mut script, mut chance) = (Script::new(), Chance::new(128));
    script.open(REFERENCE, 10, ranking);
    while script.records() + 1 < records {
        script.quote(narrow(REFERENCE));
        fill(&mut script, &mut chance);
        for _ in 0..200 {
            renew_one(&mut script, &mut chance);
        }
        // Moves beyond a good part of one side.
        let far = 40 * TICK;
        let up = chance.in_thousand(500);
        script.quote(narrow(if up { REFERENCE + far } else { REFERENCE - far }));
    }
    script.close();
    script.into_bytes()
}

fn narrow(middle: u32) -> Terms {
    Terms {
        bid: middle - TICK,
        bid_pieces: 400_000,
        ask: middle + TICK,
        ask_pieces: 400_000,
        flagged: false,
    }
}

fn fill(script: &mut Script, chance: &mut Chance) {
    while script.standing.len() < PLACES {
        enter(script, chance);
    }
}

fn enter(script: &mut Script, chance: &mut Chance) {
    let away = chance.from(1, 80) * TICK;
    let pieces = chance.from(1, 50);
    if chance.in_thousand(500) {
        script.enter(7, Side::Buy, Kind::Plain, REFERENCE - away, pieces);
    } else {
        script.enter(8, Side::Sell, Kind::Plain, REFERENCE + away, pieces);
    }
}

/// One order is cancelled and another entered; now and then one too many.
fn renew_one(script: &mut Script, chance: &mut Chance) {
    if chance.in_thousand(200) {
        enter(script, chance);
    }
    let chosen = chance.from(0, script.standing.len() as u32 - 1) as usize;
    let order = script.standing[chosen];
    script.cancel(order.sender, order.ticket);
    fill(script, chance);
}
