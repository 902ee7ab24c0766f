//! The tuned engine: the same rules as the proved one, unproved and as fast as one core allows.

mod calls;
mod cross;
mod day;
mod digits;
mod enter;
mod figures;
mod highest;
mod input;
mod lanes;
mod output;
mod quote;
mod ranking;
mod refusal;
mod rows;
mod side;
mod stepper;

#[cfg(test)]
mod tests;

pub use stepper::Stepper;

use std::ops::{ControlFlow, RangeInclusive};
use std::slice::Iter;

use day::{Day, Particulars};
use digits::ZEROS;
use figures::{Sheet, PRICE_MAX};
use input::{Piece, Words};
use output::Output;
use ranking::{BySize, ByTime, Ranking};
use refusal::Refusal;
use rows::Rows;

const REPLY_TIMES: RangeInclusive<u32> = 1..=60;

/// Works the whole input and leaves the whole output in `out`.
pub fn key_of(input: &[u8], out: &mut Vec<u8>) {
    let (pieces, rest) = input.as_chunks();
    let mut output = Output::new(out, pieces.len() + 1);
    Program {
        ahead: pieces.iter(),
        short: !rest.is_empty(),
        output: &mut output,
    }
    .work();
    output.finish();
}

/// What is left to read, and where to write.
struct Program<'a, 'b> {
    ahead: Iter<'a, Piece>,
    /// A last piece of fewer bytes follows.
    short: bool,
    output: &'a mut Output<'b>,
}

/// A day that an O record asks for.
struct Opening {
    particulars: Particulars,
    by_size: bool,
}

impl Program<'_, '_> {
    /// Goes through the input while no day is open.
    fn work(&mut self) {
        let mut rows = Box::new(Rows::new());
        while let Some(piece) = self.ahead.next() {
            match opening(Words::of(piece)) {
                Err(refusal) => self.output.refuse(refusal),
                Ok(Opening {
                    particulars,
                    by_size: false,
                }) => {
                    rows = self.day::<ByTime>(particulars, rows);
                }
                Ok(Opening {
                    particulars,
                    by_size: true,
                }) => {
                    rows = self.day::<BySize>(particulars, rows);
                }
            }
        }
        self.refuse_short();
    }

    /// Works a day up to its X or the end of the input, and gives its rows back.
    fn day<R: Ranking>(&mut self, particulars: Particulars, rows: Box<Rows>) -> Box<Rows> {
        let mut day = Day::<R>::new(particulars, rows);
        day.answer(self.output, 0, ZEROS);
        if self.calls(&mut day).is_continue() {
            self.refuse_short();
        }
        day.close(self.output);
        day.rows
    }

    /// Breaks at an X.
    #[inline(never)]
    fn calls<R: Ranking>(&mut self, day: &mut Day<R>) -> ControlFlow<()> {
        for piece in &mut self.ahead {
            call(day, Words::of(piece), self.output)?;
        }
        ControlFlow::Continue(())
    }

    fn refuse_short(&mut self) {
        if self.short {
            self.output.refuse(&refusal::UNREADABLE);
            self.short = false;
        }
    }
}

/// Makes the call of a record in an open day.
#[inline(always)]
fn call<R: Ranking>(day: &mut Day<R>, words: Words, output: &mut Output) -> ControlFlow<()> {
    match words.letter() {
        b'E' if words.read_as_enter() => day.enter(words, output),
        b'C' if words.read_as_cancel() => day.cancel(words, output),
        b'Q' if words.read_as_quote() => day.quote(words, output),
        b'V' if words.read_as_quote() => day.validate(words, output),
        b'T' if words.read_as_clock() => day.clock(words, output),
        b'W' if words.read_as_bare() => day.withdraw(output),
        b'D' if words.read_as_bare() => day.decline(output),
        b'R' if words.read_as_bare() => day.renew(output),
        b'X' if words.read_as_bare() => return ControlFlow::Break(()),
        b'O' if words.read_as_open() => output.refuse(&refusal::DAY),
        _ => output.refuse(&refusal::UNREADABLE),
    }
    ControlFlow::Continue(())
}

/// What a record asks for while no day is open.
fn opening(words: Words) -> Result<Opening, &'static Refusal> {
    let (readable, opens) = match words.letter() {
        b'O' => (words.read_as_open(), true),
        b'E' => (words.read_as_enter(), false),
        b'C' => (words.read_as_cancel(), false),
        b'Q' | b'V' => (words.read_as_quote(), false),
        b'T' => (words.read_as_clock(), false),
        b'W' | b'D' | b'R' | b'X' => (words.read_as_bare(), false),
        _ => (false, false),
    };
    if !readable {
        Err(&refusal::UNREADABLE)
    } else if !opens {
        Err(&refusal::DAY)
    } else {
        checked(words)
    }
}

fn checked(words: Words) -> Result<Opening, &'static Refusal> {
    let ([reference, ranking], reply_time) = (words.first_two(), words.small());
    if !(1..=PRICE_MAX).contains(&reference) {
        return Err(&refusal::REFERENCE);
    }
    if !REPLY_TIMES.contains(&reply_time) {
        return Err(&refusal::REPLY_TIME);
    }
    let sheet = if words.mark() == b'L' {
        Sheet::Leveraged
    } else {
        Sheet::Investment
    };
    let particulars = Particulars {
        sheet,
        reference,
        reply_time,
    };
    Ok(Opening {
        particulars,
        by_size: ranking == 2,
    })
}
