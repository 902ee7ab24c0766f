//! Each record read, with the records that it brought out.

use super::form::WRITTEN;
use super::line::{parse_read, Flaw, Line};
use std::slice::Chunks;

const LINE_BYTES: usize = 40;

/// What a step begins with.
#[derive(Clone, Copy, Debug, PartialEq, Eq)]
pub enum Asked {
    Line(Line),
    Flawed(Flaw),
    EndOfInput,
}

pub struct Step {
    /// Counted from 0; the end of the input counts as one more.
    pub index: usize,
    pub asked: Asked,
    pub told: Vec<Line>,
}

/// Why an output cannot be laid beside its input.
#[derive(Clone, Debug, PartialEq, Eq)]
pub struct Misfit {
    pub index: usize,
    pub what: String,
}

/// Goes through an input and its output side by side.
pub struct Transcript<'a> {
    input: Chunks<'a, u8>,
    output: Chunks<'a, u8>,
    index: usize,
}

impl<'a> Transcript<'a> {
    pub fn new(input: &'a [u8], output: &'a [u8]) -> Transcript<'a> {
        Transcript {
            input: input.chunks(LINE_BYTES),
            output: output.chunks(LINE_BYTES),
            index: 0,
        }
    }

    /// The next step, or none when input and output are both at their end.
    pub fn next_step(&mut self) -> Result<Option<Step>, Misfit> {
        let asked = match self.input.next().map(parse_read) {
            Some(Ok(line)) => Asked::Line(line),
            Some(Err(flaw)) => Asked::Flawed(flaw),
            None if self.output.len() == 0 => return Ok(None),
            None => Asked::EndOfInput,
        };
        let told = self.told_for(asked)?;
        let index = self.index;
        self.index += 1;
        Ok(Some(Step { index, asked, told }))
    }

    /// All records up to the one that ends a step: A, N or Z2; but a close goes on after an A.
    fn told_for(&mut self, asked: Asked) -> Result<Vec<Line>, Misfit> {
        let is_close = match asked {
            Asked::Line(line) => line.letter == b'X',
            Asked::Flawed(_) => false,
            Asked::EndOfInput => true,
        };
        let mut told = Vec::new();
        loop {
            let line = self.next_told()?;
            told.push(line);
            match (line.letter, line.mark) {
                (b'A', _) if !is_close => return Ok(told),
                (b'N', _) | (b'Z', b'2') => return Ok(told),
                _ => {}
            }
        }
    }

    fn next_told(&mut self) -> Result<Line, Misfit> {
        let Some(piece) = self.output.next() else {
            return Err(self.misfit("the output ends too early".to_string()));
        };
        Line::parse(piece, WRITTEN).map_err(|flaw| {
            let text = String::from_utf8_lossy(piece);
            self.misfit(format!("{flaw} in {:?}", text.trim_end()))
        })
    }

    fn misfit(&self, what: String) -> Misfit {
        Misfit {
            index: self.index,
            what,
        }
    }
}
