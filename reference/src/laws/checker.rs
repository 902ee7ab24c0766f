//! One step after the other: what each record must bring out.

use super::broken::{ensure, Fault, Law};
use super::day::{self, Accepted, Day};
use super::edges::{edges_of, reason_of};
use super::refusals::{self, Refusal};
use super::report::check_report;
use super::sight::{Event, Sight};
use super::standing::Standing;
use crate::transcript::{Asked, Flaw, Line, Step};

pub struct Checker<'a> {
    day: Option<Standing>,
    watch: &'a mut dyn FnMut(Sight),
}

impl<'a> Checker<'a> {
    pub fn new(watch: &'a mut dyn FnMut(Sight)) -> Checker<'a> {
        Checker { day: None, watch }
    }

    fn phase_letter(&self) -> char {
        self.day.as_ref().map_or('-', |day| day.phase.letter())
    }

    pub fn step(&mut self, step: &Step) -> Result<(), Fault> {
        match step.asked {
            Asked::Flawed(flaw) => self.unreadable(flaw, &step.told),
            Asked::Line(asked) => self.readable(&asked, &step.told),
            Asked::EndOfInput => {
                let phase = self.phase_letter();
                ensure(phase != '-', Law::Form, || {
                    "more is written, but the input is at its end and no day is open".to_string()
                })?;
                (self.watch)(Sight::InputEnded { phase });
                self.close(&step.told)
            }
        }
    }

    /// After the last step no day may be open.
    pub fn end(&mut self) -> Result<(), Fault> {
        ensure(self.day.is_none(), Law::Report, || {
            "no report for the day that was open at the end of the input".to_string()
        })
    }

    fn unreadable(&mut self, flaw: Flaw, told: &[Line]) -> Result<(), Fault> {
        (self.watch)(Sight::Unreadable(flaw));
        refused_with(refusals::UNREADABLE, told)
    }

    fn readable(&mut self, asked: &Line, told: &[Line]) -> Result<(), Fault> {
        let failing = refusals::all_failing(self.day.as_ref(), asked);
        if let Some((first, later)) = failing.split_first() {
            refused_with(*first, told)?;
            self.tell_refused(asked, *first, later);
            return Ok(());
        }
        if let Some(standing) = &self.day {
            for edge in edges_of(standing, asked) {
                (self.watch)(Sight::AtEdge(edge));
            }
        }
        match asked.letter {
            b'O' => self.open(asked, told),
            b'X' => self.close(told),
            letter => self.call(letter.into(), *asked, told),
        }
    }

    fn tell_refused(&mut self, asked: &Line, first: Refusal, later: &[Refusal]) {
        let (letter, phase) = (char::from(asked.letter), self.phase_letter());
        (self.watch)(Sight::Refused {
            letter,
            refusal: first,
            phase,
        });
        for &later in later {
            (self.watch)(Sight::TestedBefore {
                letter,
                first,
                later,
            });
        }
        if let Some(reason) = reason_of(self.day.as_ref(), asked, first) {
            (self.watch)(Sight::RefusedFor(reason));
        }
    }

    fn open(&mut self, asked: &Line, told: &[Line]) -> Result<(), Fault> {
        let right = Line {
            letter: b'A',
            mark: b'D',
            small: 0,
            fields: [0, asked.fields[0], 0, 0],
        };
        ensure(told == [right], Law::Answers, || {
            format!("an open brings out {}", all(told))
        })?;
        let (from, to) = ('-', 'D');
        (self.watch)(Sight::Call {
            letter: 'O',
            event: Event::Moves { from, to },
        });
        self.day = Some(day::open(asked, self.watch));
        Ok(())
    }

    /// An accepted call of the open day.
    fn call(&mut self, letter: char, asked: Line, told: &[Line]) -> Result<(), Fault> {
        let (answer, slips) = match told.split_last() {
            Some((answer, slips)) if answer.letter == b'A' => (*answer, slips),
            _ => {
                return Err(Fault {
                    law: Law::Refusals,
                    what: format!("nothing is against it, but it brings out {}", all(told)),
                })
            }
        };
        let standing = self.day.as_mut().expect("without a day it is refused");
        let accepted = Accepted {
            letter,
            asked,
            slips,
            answer,
        };
        Day {
            standing,
            watch: self.watch,
        }
        .accepted(&accepted)
    }

    /// If an RFE is open, all that a decline writes; then the two records of the report.
    fn close(&mut self, told: &[Line]) -> Result<(), Fault> {
        let Some((declined, [first, second])) = told.split_last_chunk::<2>() else {
            return Err(Fault {
                law: Law::Report,
                what: format!("a close brings out {}", all(told)),
            });
        };
        let is_report = (first.letter, first.mark, second.letter) == (b'Z', b'1', b'Z');
        ensure(is_report, Law::Report, || {
            "no report of two records".to_string()
        })?;
        if self.phase_letter() == 'R' {
            let asked = Line {
                letter: b'D',
                mark: b'-',
                small: 0,
                fields: [0; 4],
            };
            self.call('X', asked, declined)?;
        } else {
            ensure(declined.is_empty(), Law::Report, || {
                format!("{} records before the report", declined.len())
            })?;
        }
        let (from, to) = (self.phase_letter(), '-');
        (self.watch)(Sight::Call {
            letter: 'X',
            event: Event::Moves { from, to },
        });
        let standing = self.day.take().expect("without a day it is refused");
        check_report(&standing, first, second)
    }
}

/// Several records as one text.
fn all(told: &[Line]) -> String {
    let texts: Vec<String> = told.iter().map(Line::to_string).collect();
    if texts.is_empty() {
        "nothing".to_string()
    } else {
        texts.join("; ")
    }
}

fn refused_with(refusal: Refusal, told: &[Line]) -> Result<(), Fault> {
    let right = Line {
        letter: b'N',
        mark: refusal.layer,
        small: refusal.number,
        fields: [refusal.field, 0, 0, 0],
    };
    ensure(told == [right], Law::Refusals, || {
        format!("it must be refused {refusal}, but brings out {}", all(told))
    })
}
