//! A day of RFEs: many orders of both sides wait, and each RFE ends in one of the ways it can.

use super::chance::Chance;
use super::script::{Kind, Phase, Ranking, Script, Side, Terms};

const REFERENCE: u32 = 100_000;
const TICK: u32 = 100;
const REPLY_TIME: u32 = 3;
const LAST_SECOND: u32 = 86_400;

pub fn day(records: usize, ranking: Ranking) -> Vec<u8> {
    let (mut script, mut chance) = (Script::new(), Chance::new(3));
    script.open(REFERENCE, REPLY_TIME, ranking);
    while script.records() + 1 < records {
        script.quote(terms(&mut chance));
        for _ in 0..chance.from(2, 10) {
            enter(&mut script, &mut chance, 1, 6);
        }
        while script.phase == Phase::Lit {
            script.enter(9, Side::Buy, Kind::Plain, REFERENCE + 20 * TICK, 300);
        }
        for _ in 0..chance.from(20, 70) {
            enter(&mut script, &mut chance, -12, 12);
        }
        end(&mut script, &mut chance);
        clear(&mut script, &mut chance);
    }
    script.close();
    script.into_bytes()
}

fn terms(chance: &mut Chance) -> Terms {
    Terms {
        bid: REFERENCE - chance.from(7, 10) * TICK,
        bid_pieces: chance.from(200, 9_000),
        ask: REFERENCE + chance.from(7, 10) * TICK,
        ask_pieces: chance.from(200, 9_000),
        flagged: true,
    }
}

/// Enters an order so many ticks on its own side of the reference.
fn enter(script: &mut Script, chance: &mut Chance, low: i32, high: i32) {
    let kind = if chance.in_thousand(150) {
        Kind::Brief
    } else {
        Kind::Plain
    };
    let away = (low + chance.from(0, (high - low) as u32) as i32) * TICK as i32;
    let (sender, pieces) = (chance.from(1, 99), chance.from(1, 300));
    if chance.in_thousand(500) {
        script.enter(
            sender,
            Side::Buy,
            kind,
            (REFERENCE as i32 - away) as u32,
            pieces,
        );
    } else {
        script.enter(
            sender,
            Side::Sell,
            kind,
            (REFERENCE as i32 + away) as u32,
            pieces,
        );
    }
}

fn end(script: &mut Script, chance: &mut Chance) {
    script.clock(script.seconds);
    match chance.from(0, 9) {
        0..=4 => script.validate(terms(chance)),
        5..=6 => script.decline(),
        7 => script.withdraw(),
        _ => script.clock((script.seconds + REPLY_TIME).min(LAST_SECOND)),
    }
    // A day whose clock has run out ends its RFEs by a decline.
    if script.phase == Phase::Rfe {
        script.decline();
    }
}

/// Cancels until few are left, so that the book never stays full.
fn clear(script: &mut Script, chance: &mut Chance) {
    while script.standing.len() > 40 {
        let chosen = chance.from(0, script.standing.len() as u32 - 1) as usize;
        let order = script.standing[chosen];
        script.cancel(order.sender, order.ticket);
    }
}
