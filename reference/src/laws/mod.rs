//! The laws of the rules, checked on an input and an output alone.
//!
//! The checker shares no code with the engine, and runs no cross. It keeps what stands by the
//! accepted records and the slips, and judges each slip by what stands just before it.

mod broken;
mod checker;
mod day;
mod edges;
mod figures;
mod rank;
mod refusals;
mod replay;
mod report;
mod sight;
mod standing;

pub use broken::{Broken, Law};
pub use edges::{Edge, Reason};
pub use refusals::{refusal, Refusal};
pub use sight::{Event, Part, Parties, Rare, Sight};

use crate::transcript::{Misfit, Transcript};
use checker::Checker;

/// Checks all laws, and tells what happened on the way.
pub fn check(input: &[u8], output: &[u8], watch: &mut dyn FnMut(Sight)) -> Result<(), Broken> {
    let mut transcript = Transcript::new(input, output);
    let mut checker = Checker::new(watch);
    let mut steps = 0;
    while let Some(step) = transcript.next_step().map_err(wrong_form)? {
        checker.step(&step).map_err(|fault| fault.at(step.index))?;
        steps += 1;
    }
    checker.end().map_err(|fault| fault.at(steps))
}

fn wrong_form(misfit: Misfit) -> Broken {
    Broken {
        record: misfit.index,
        law: Law::Form,
        what: misfit.what,
    }
}
