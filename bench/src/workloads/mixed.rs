//! An ordinary day: mostly orders and cancels, the Specialist quoting along, some of everything.

use super::chance::Chance;
use super::script::{record, Kind, Phase, Ranking, Script, Side, Terms};

const REFERENCE: u32 = 100_000;
const TICK: u32 = 100;
const REPLY_TIME: u32 = 2;
const MANY_STANDING: usize = 110;
const LAST_SECOND: u32 = 86_400;

struct Market {
    script: Script,
    chance: Chance,
    middle: u32,
}

/// One day of so many records, its O and X included.
pub fn day(records: usize, ranking: Ranking) -> Vec<u8> {
    let mut market = Market {
        script: Script::new(),
        chance: Chance::new(7),
        middle: REFERENCE,
    };
    market.script.open(REFERENCE, REPLY_TIME, ranking);
    while market.script.records() + 1 < records {
        market.act();
    }
    market.script.close();
    market.script.into_bytes()
}

impl Market {
    fn act(&mut self) {
        match self.script.phase {
            Phase::Dark => self.quote(),
            Phase::Lit => self.trade(),
            Phase::Rfe => self.reply(),
            Phase::Halted => self.pass(120),
        }
    }

    fn trade(&mut self) {
        match self.chance.from(0, 999) {
            0..=549 => self.enter(),
            550..=799 => self.cancel(),
            800..=929 => self.quote(),
            930..=959 => self.pass(1),
            960..=974 => self.script.renew(),
            975..=979 => self.script.withdraw(),
            _ => self.blunder(),
        }
    }

    fn reply(&mut self) {
        match self.chance.from(0, 999) {
            0..=599 => self.enter(),
            600..=699 => self.cancel(),
            700..=849 => {
                let terms = self.terms();
                self.script.validate(terms);
            }
            850..=899 => self.script.decline(),
            _ => self.pass(1),
        }
    }

    fn enter(&mut self) {
        if self.script.standing.len() >= MANY_STANDING {
            return self.cancel();
        }
        let side = if self.chance.in_thousand(500) {
            Side::Buy
        } else {
            Side::Sell
        };
        let kind = if self.chance.in_thousand(80) {
            Kind::Brief
        } else {
            Kind::Plain
        };
        // Most orders stand a little away from the middle, some reach across.
        let away = if self.chance.in_thousand(200) {
            -12
        } else {
            1 + self.depth()
        };
        let steps = match side {
            Side::Buy => -away,
            Side::Sell => away,
        };
        let price = (self.middle as i32 + steps * TICK as i32) as u32;
        let (sender, pieces) = (self.chance.from(1, 99_999), self.chance.from(1, 900));
        self.script.enter(sender, side, kind, price, pieces);
    }

    /// Small depths are the likelier ones.
    fn depth(&mut self) -> i32 {
        let widest = self.chance.from(1, 40);
        self.chance.from(0, widest) as i32
    }

    fn cancel(&mut self) {
        let Some(last) = self.script.standing.len().checked_sub(1) else {
            return self.script.cancel(1, 1);
        };
        let order = self.script.standing[self.chance.from(0, last as u32) as usize];
        self.script.cancel(order.sender, order.ticket);
    }

    fn quote(&mut self) {
        let step = self.chance.from(0, 2) * TICK;
        self.middle = (self.middle + step - TICK).clamp(90_000, 110_000);
        let terms = self.terms();
        self.script.quote(terms);
    }

    fn terms(&mut self) -> Terms {
        let half = self.chance.from(3, 10) * TICK;
        Terms {
            bid: self.middle - half,
            bid_pieces: self.chance.from(500, 20_000),
            ask: self.middle + half,
            ask_pieces: self.chance.from(500, 20_000),
            flagged: self.chance.in_thousand(150),
        }
    }

    fn pass(&mut self, seconds: u32) {
        // A long day moves its clock by less than a second at a time.
        let moves = seconds > 1 || self.script.phase == Phase::Rfe || self.chance.in_thousand(500);
        let step = if moves { seconds } else { 0 };
        self.script
            .clock((self.script.seconds + step).min(LAST_SECOND));
    }

    /// Something that is refused.
    fn blunder(&mut self) {
        match self.chance.from(0, 5) {
            0 => self.script.enter(0, Side::Buy, Kind::Plain, REFERENCE, 1),
            1 => self
                .script
                .enter(5, Side::Buy, Kind::Plain, REFERENCE + 1, 1),
            2 => self
                .script
                .enter(5, Side::Sell, Kind::Plain, 3 * REFERENCE, 1),
            3 => self
                .script
                .enter(5, Side::Sell, Kind::Plain, REFERENCE, 600_000),
            4 => self.script.cancel(5, 999_999),
            _ => self.script.raw(record(b"E?", 5, [REFERENCE, 1, 0, 0])),
        }
    }
}
