//! The engine one record at a time, for whoever has to see an answer before the next record.

use super::day::Day;
use super::digits::ZEROS;
use super::input::{Piece, Words};
use super::output::Output;
use super::ranking::{BySize, ByTime, Ranking};
use super::rows::{Rows, ROWS};
use super::{call, opening, Opening};

/// Works records one at a time.
#[derive(Default)]
pub struct Stepper {
    day: Option<AnyDay>,
    written: Vec<u8>,
}

enum AnyDay {
    Time(Box<Day<ByTime>>),
    Size(Box<Day<BySize>>),
}

impl Stepper {
    /// What the record brings out.
    pub fn step(&mut self, record: &Piece) -> &[u8] {
        let words = Words::of(record);
        let mut output = Output::new(&mut self.written, ROWS);
        self.day = match self.day.take() {
            None => open(words, &mut output),
            Some(AnyDay::Time(day)) => go_on(day, words, &mut output).map(AnyDay::Time),
            Some(AnyDay::Size(day)) => go_on(day, words, &mut output).map(AnyDay::Size),
        };
        output.finish();
        &self.written
    }
}

fn open(words: Words, output: &mut Output) -> Option<AnyDay> {
    match opening(words) {
        Err(refusal) => {
            output.refuse(refusal);
            None
        }
        Ok(Opening {
            particulars,
            by_size: false,
        }) => {
            let day = Day::new(particulars, Box::new(Rows::new()));
            day.answer(output, 0, ZEROS);
            Some(AnyDay::Time(Box::new(day)))
        }
        Ok(Opening {
            particulars,
            by_size: true,
        }) => {
            let day = Day::new(particulars, Box::new(Rows::new()));
            day.answer(output, 0, ZEROS);
            Some(AnyDay::Size(Box::new(day)))
        }
    }
}

fn go_on<R: Ranking>(
    mut day: Box<Day<R>>,
    words: Words,
    output: &mut Output,
) -> Option<Box<Day<R>>> {
    if call(&mut day, words, output).is_break() {
        day.close(output);
        return None;
    }
    Some(day)
}
