//! Running through the input, day by day (RECORDS.md, "Running through the input").

use super::book::Book;
use super::calls::Answer;
use super::read::{read, Call};
use super::refusal::Refusal;
use super::report::Report;
use super::write::{write_answer, write_refusal, write_report};

/// The program between two records.
#[derive(Default)]
pub struct Program {
    day: Option<Book>,
}

impl Program {
    /// The book of the open day, if one is open.
    pub fn day(&self) -> Option<&Book> {
        self.day.as_ref()
    }

    /// Takes one piece of the input, and writes all that it brings out.
    pub fn take(&mut self, piece: &[u8], out: &mut Vec<u8>) {
        if let Err(refusal) = self.try_take(piece, out) {
            write_refusal(out, refusal);
        }
    }

    /// The input is at its end: a day that is still open is closed.
    pub fn finish(&mut self, out: &mut Vec<u8>) {
        if let Some(book) = self.day.take() {
            close(book, out);
        }
    }

    fn try_take(&mut self, piece: &[u8], out: &mut Vec<u8>) -> Result<(), Refusal> {
        match read(piece)? {
            Call::Open(terms) => {
                if self.day.is_some() {
                    return Err(Refusal::WrongDay);
                }
                let book = Book::open(terms)?;
                write_answer(out, &opening_answer(&book));
                self.day = Some(book);
            }
            Call::Close => {
                let book = self.day.take().ok_or(Refusal::WrongDay)?;
                close(book, out);
            }
            call => {
                let book = self.day.as_mut().ok_or(Refusal::WrongDay)?;
                write_answer(out, &make(book, call)?);
            }
        }
        Ok(())
    }
}

fn opening_answer(book: &Book) -> Answer {
    Answer {
        slips: Vec::new(),
        phase: book.phase,
        number: 0,
        dynamic_price: book.dynamic_price,
        opening_ticket: 0,
    }
}

fn make(book: &mut Book, call: Call) -> Result<Answer, Refusal> {
    match call {
        Call::Enter(terms) => book.enter(terms),
        Call::Cancel { sender, ticket } => book.cancel(sender, ticket),
        Call::Quote(terms) => book.quote(terms),
        Call::Validate(terms) => book.validate(terms),
        Call::Clock { seconds } => book.clock(seconds),
        Call::Withdraw => book.withdraw(),
        Call::Decline => Ok(book.decline()),
        Call::Renew => Ok(book.renew()),
        Call::Open(_) | Call::Close => unreachable!("these begin and end a day"),
    }
}

/// An RFE that is open is declined first; close itself runs nothing.
fn close(mut book: Book, out: &mut Vec<u8>) {
    if book.rfe().is_some() {
        write_answer(out, &book.decline());
    }
    write_report(out, &Report::of(&book));
}
