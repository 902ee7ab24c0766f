//! An input laid beside its output, record by record. Shares nothing with the engine.

mod form;
mod line;
mod step;

pub use line::{Flaw, Line};
pub use step::{Asked, Misfit, Step, Transcript};
