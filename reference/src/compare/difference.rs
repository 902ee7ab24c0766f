//! Where two outputs differ, told by the record read that brought it about.

use crate::engine::{Program, RECORD_BYTES};
use std::fmt;

#[derive(Clone, Debug, PartialEq, Eq)]
pub struct Difference {
    /// The record read, counted from 0; `None` is the end of the input.
    pub record_read: Option<usize>,
    pub record_read_text: String,
    /// The record written, counted from 0.
    pub record_written: usize,
    pub expected: String,
    pub found: String,
}

impl Difference {
    /// The first difference from the second engine's output, if there is any.
    pub fn between(input: &[u8], expected: &[u8], found: &[u8]) -> Option<Difference> {
        if expected == found {
            return None;
        }
        let is_same = |(one, other): &(&u8, &u8)| one == other;
        let place = expected.iter().zip(found).take_while(is_same).count();
        let record_written = place / RECORD_BYTES;
        let record_read = record_read_at(input, place);
        Some(Difference {
            record_read,
            record_read_text: record_read.map_or(String::new(), |index| text_at(input, index)),
            record_written,
            expected: text_at(expected, record_written),
            found: text_at(found, record_written),
        })
    }
}

/// The record during which the second engine's output grows beyond a place.
fn record_read_at(input: &[u8], place: usize) -> Option<usize> {
    let mut program = Program::default();
    let mut out = Vec::new();
    for (index, piece) in input.chunks(RECORD_BYTES).enumerate() {
        program.take(piece, &mut out);
        if out.len() > place {
            return Some(index);
        }
    }
    None
}

fn text_at(bytes: &[u8], index: usize) -> String {
    match bytes.chunks(RECORD_BYTES).nth(index) {
        Some(piece) => String::from_utf8_lossy(piece).trim_end().to_string(),
        None => "nothing".to_string(),
    }
}

impl fmt::Display for Difference {
    fn fmt(&self, formatter: &mut fmt::Formatter) -> fmt::Result {
        match self.record_read {
            Some(index) => writeln!(formatter, "record read {index}: {}", self.record_read_text)?,
            None => writeln!(formatter, "at the end of the input")?,
        }
        writeln!(formatter, "record written {}", self.record_written)?;
        writeln!(formatter, "  second engine: {}", self.expected)?;
        write!(formatter, "  program:       {}", self.found)
    }
}

#[cfg(test)]
mod tests {
    use super::*;

    #[test]
    fn equal_outputs_have_no_difference() {
        assert_eq!(Difference::between(b"", b"", b""), None);
    }

    #[test]
    fn output_that_goes_on_differs_at_the_end() {
        let difference = Difference::between(b"", b"", b"A").unwrap();
        assert_eq!(difference.record_read, None);
        assert_eq!(difference.expected, "nothing");
        assert_eq!(difference.found, "A");
    }
}
