//! Another engine against the second engine, byte for byte, on a fixed set of inputs.

mod difference;
mod plan;
mod program;

pub use difference::Difference;
pub use plan::{Input, Judge, Plan};
pub use program::run_program;

use crate::coverage::Coverage;
use crate::engine::{key_of, RECORD_BYTES};
use crate::laws::{self, Broken};
use std::{fmt, io};

/// What was compared, and what it reached.
#[derive(Debug)]
pub struct Summary {
    pub records: usize,
    pub inputs: usize,
    pub coverage: Coverage,
}

/// Why a comparison ended early.
#[derive(Debug)]
pub enum Failure {
    Differs(Difference),
    LawBroken(Broken),
    CouldNotRun(io::Error),
}

/// A failure and the input on which it came up.
#[derive(Debug)]
pub struct FailedInput {
    pub input: Input,
    pub failure: Failure,
}

impl fmt::Display for FailedInput {
    fn fmt(&self, formatter: &mut fmt::Formatter) -> fmt::Result {
        let name = &self.input.name;
        match &self.failure {
            Failure::Differs(difference) => write!(formatter, "input {name} differs\n{difference}"),
            Failure::LawBroken(broken) => write!(formatter, "input {name} breaks a law\n{broken}"),
            Failure::CouldNotRun(error) => {
                write!(formatter, "input {name} could not be run: {error}")
            }
        }
    }
}

/// Compares an engine that cannot fail to run.
pub fn compare_with(
    mut run: impl FnMut(&[u8]) -> Vec<u8>,
    plan: Plan,
) -> Result<Summary, Box<FailedInput>> {
    try_compare_with(|input| Ok(run(input)), plan)
}

/// Compares an engine on all inputs of a plan, up to the first failure.
pub fn try_compare_with(
    mut run: impl FnMut(&[u8]) -> io::Result<Vec<u8>>,
    plan: Plan,
) -> Result<Summary, Box<FailedInput>> {
    let mut summary = Summary {
        records: 0,
        inputs: 0,
        coverage: Coverage::default(),
    };
    for input in plan.inputs() {
        let judged = run(&input.bytes)
            .map_err(Failure::CouldNotRun)
            .and_then(|found| judge(&input.bytes, &found, plan.judge, &mut summary.coverage));
        if let Err(failure) = judged {
            return Err(Box::new(FailedInput { input, failure }));
        }
        summary.records += input.bytes.len().div_ceil(RECORD_BYTES);
        summary.inputs += 1;
    }
    Ok(summary)
}

fn judge(input: &[u8], found: &[u8], judge: Judge, coverage: &mut Coverage) -> Result<(), Failure> {
    if judge == Judge::SecondEngineAndLaws {
        if let Some(difference) = Difference::between(input, &key_of(input), found) {
            return Err(Failure::Differs(difference));
        }
    }
    laws::check(input, found, &mut |sight| coverage.count(sight)).map_err(Failure::LawBroken)
}
