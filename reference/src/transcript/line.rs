//! One record, taken apart by its form.

use super::form::Form;
use std::fmt;

const LINE_BYTES: usize = 40;

/// A record whose form is right.
#[derive(Clone, Copy, Debug, PartialEq, Eq)]
pub struct Line {
    pub letter: u8,
    pub mark: u8,
    pub small: u64,
    pub fields: [u64; 4],
}

/// What is wrong with the form of a record: the first thing, in the order of the document.
#[derive(Clone, Copy, Debug, PartialEq, Eq, PartialOrd, Ord)]
pub enum Flaw {
    Short,
    NoNewline,
    UnknownLetter,
    WrongMark(u8),
    NoDigit(u8),
    UnusedDigit(u8),
    UnknownRanking,
}

/// The record with spaces between its parts.
impl fmt::Display for Line {
    fn fmt(&self, formatter: &mut fmt::Formatter) -> fmt::Result {
        let (letter, mark) = (self.letter as char, self.mark as char);
        write!(formatter, "{letter}{mark} {:05}", self.small)?;
        for field in self.fields {
            write!(formatter, " {field:08}")?;
        }
        Ok(())
    }
}

impl fmt::Display for Flaw {
    fn fmt(&self, formatter: &mut fmt::Formatter) -> fmt::Result {
        match *self {
            Flaw::Short => write!(formatter, "short piece"),
            Flaw::NoNewline => write!(formatter, "no newline"),
            Flaw::UnknownLetter => write!(formatter, "unknown letter"),
            Flaw::WrongMark(letter) => write!(formatter, "wrong mark of {}", letter as char),
            Flaw::NoDigit(letter) => write!(formatter, "no digit in {}", letter as char),
            Flaw::UnusedDigit(letter) => {
                write!(formatter, "unused digit not 0 in {}", letter as char)
            }
            Flaw::UnknownRanking => write!(formatter, "unknown ranking"),
        }
    }
}

impl Line {
    pub fn parse(piece: &[u8], forms: &[Form]) -> Result<Line, Flaw> {
        let bytes: &[u8; LINE_BYTES] = piece.try_into().map_err(|_| Flaw::Short)?;
        let [letter, mark, digits @ .., newline] = bytes;
        if *newline != b'\n' {
            return Err(Flaw::NoNewline);
        }
        let form = form_of(forms, *letter, *mark)?;
        if !digits.iter().all(u8::is_ascii_digit) {
            return Err(Flaw::NoDigit(*letter));
        }
        let line = Line {
            letter: *letter,
            mark: *mark,
            small: value(&digits[..5]),
            fields: [5, 13, 21, 29].map(|start| value(&digits[start..start + 8])),
        };
        line.test_unused(form)?;
        Ok(line)
    }

    fn test_unused(&self, form: &Form) -> Result<(), Flaw> {
        let unused_fields = &self.fields[form.fields_used..];
        let is_small_unused_but_set = !form.uses_small && self.small != 0;
        if is_small_unused_but_set || unused_fields.iter().any(|&field| field != 0) {
            return Err(Flaw::UnusedDigit(self.letter));
        }
        Ok(())
    }

    /// The two totals of 16 digits that a report record holds.
    pub fn totals(&self) -> [u64; 2] {
        let [one, two, three, four] = self.fields;
        [one * 100_000_000 + two, three * 100_000_000 + four]
    }
}

/// A record that is read: an open must name a ranking that there is.
pub fn parse_read(piece: &[u8]) -> Result<Line, Flaw> {
    let line = Line::parse(piece, super::form::READ)?;
    if line.letter == b'O' && !matches!(line.fields[1], 1 | 2) {
        return Err(Flaw::UnknownRanking);
    }
    Ok(line)
}

fn form_of(forms: &[Form], letter: u8, mark: u8) -> Result<&Form, Flaw> {
    let mut with_letter = forms.iter().filter(|form| form.letter == letter).peekable();
    with_letter.peek().ok_or(Flaw::UnknownLetter)?;
    with_letter
        .find(|form| form.marks.contains(&mark))
        .ok_or(Flaw::WrongMark(letter))
}

fn value(digits: &[u8]) -> u64 {
    let append = |number, digit: &u8| number * 10 + u64::from(digit - b'0');
    digits.iter().fold(0, append)
}
