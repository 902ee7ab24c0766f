//! Random days. The second engine runs along, so that each choice fits what stands.

use super::caller::Caller;
use super::choose_call::choose;
use super::mood::{Mood, MOODS};
use super::random::Random;
use super::record::{bare, record, sample, Record};
use super::spoil::spoil;
use crate::engine::book::{Book, Phase};
use crate::engine::Program;

/// References at the edges of bands and between them.
const REFERENCES: [u64; 26] = [
    1, 2, 37, 50, 51, 500, 1_000, 1_001, 5_005, 10_000, 10_001, 20_000, 30_000, 30_001, 100_000,
    300_000, 300_001, 700_000, 700_001, 900_000, 900_001, 2_345_678, 3_000_000, 3_000_001,
    50_000_000, 99_999_999,
];

/// An input of so many records, and perhaps a short piece at its end.
pub fn days(seed: u64, records: usize) -> Vec<u8> {
    let mut days = Days {
        random: Random::new(seed),
        mood: mood_of(seed),
        program: Program::default(),
        input: Vec::new(),
    };
    for _ in 0..records {
        days.add_record();
    }
    days.end()
}

/// The name of what the days of a seed are like.
pub fn mood_name(seed: u64) -> &'static str {
    mood_of(seed).name
}

/// Moods take turns, so that a few seeds in a row have them all.
fn mood_of(seed: u64) -> &'static Mood {
    MOODS[(seed % MOODS.len() as u64) as usize]
}

struct Days {
    random: Random,
    mood: &'static Mood,
    program: Program,
    input: Vec<u8>,
}

impl Days {
    /// The input, perhaps with a short piece at its end, or a byte too many shortly before it.
    fn end(mut self) -> Vec<u8> {
        if self.random.percent(30) {
            let bytes = self.random.between(1, 39) as usize;
            self.input.extend_from_slice(&bare(b'X')[..bytes]);
        }
        if self.random.percent(20) && self.input.len() > 200 {
            let place = self.input.len() - self.random.between(1, 200) as usize;
            self.input.insert(place, b'0');
        }
        self.input
    }

    fn add_record(&mut self) {
        let mut record = self.next_record();
        if self.random.permille(self.mood.unreadable) {
            if self.random.percent(50) {
                record = sample(self.random.pick(b"OECQVTWDRX"));
            }
            spoil(&mut self.random, &mut record);
        }
        self.program.take(&record, &mut Vec::new());
        self.input.extend_from_slice(&record);
    }

    fn next_record(&mut self) -> Record {
        let (random, mood) = (&mut self.random, self.mood);
        let Some(book) = self.program.day() else {
            return first_record(random, mood);
        };
        if random.permille(mood.close) || is_stuck(random, book) {
            return bare(b'X');
        }
        if random.permille(3) {
            return open(random, mood);
        }
        if mood.late && book.clock == 0 {
            return record(b'T', b'-', random.between(86_250, 86_400), [0; 4]);
        }
        let choice = choose(random, mood, book.phase);
        Caller { random, mood, book }.call(choice)
    }
}

/// A halt that no clock can end is soon closed.
fn is_stuck(random: &mut Random, book: &Book) -> bool {
    matches!(book.phase, Phase::Halted { over } if over > 86_400) && random.percent(10)
}

/// With no day open: mostly an open.
fn first_record(random: &mut Random, mood: &Mood) -> Record {
    if random.percent(90) {
        return open(random, mood);
    }
    sample(random.pick(b"ECQVTWDRX"))
}

fn open(random: &mut Random, mood: &Mood) -> Record {
    let mut reference = random.pick(&REFERENCES);
    let mut reply_time = random.pick(&[1, 2, 5, 10, 30, 59, 60]);
    if random.permille(mood.wrong) {
        reference = 0;
    }
    if random.permille(mood.wrong) {
        reply_time = random.pick(&[0, 61, 99_999]);
    }
    let ranking = random.pick(&[1, 2]);
    record(
        b'O',
        random.pick(b"LI"),
        reply_time,
        [reference, ranking, 0, 0],
    )
}

#[cfg(test)]
mod tests {
    use super::*;

    #[test]
    fn a_seed_gives_the_same_input_again() {
        assert_eq!(days(7, 300), days(7, 300));
        assert_ne!(days(7, 300), days(16, 300));
    }
}
