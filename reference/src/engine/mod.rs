//! The second engine, as plain as the rules themselves.
//!
//! Written from the documents alone, with orders in a list and no thought of speed. Where a piece
//! of code works a rule, it has the name of the rule.

mod band;
pub mod book;
mod calls;
mod cross;
pub mod figures;
pub mod order;
mod program;
pub mod quote;
pub mod ranking;
mod read;
mod refusal;
mod report;
pub mod sheet;
mod slip;
mod write;

pub use program::Program;
pub use read::RECORD_BYTES;

/// The whole output for a whole input.
pub fn key_of(input: &[u8]) -> Vec<u8> {
    let mut program = Program::default();
    let mut out = Vec::new();
    for piece in input.chunks(RECORD_BYTES) {
        program.take(piece, &mut out);
    }
    program.finish(&mut out);
    out
}
