use super::Engine;
use crate::tuned;

/// The unproved engine of this package.
pub struct Tuned;

impl Engine for Tuned {
    fn name(&self) -> &'static str {
        "tuned"
    }

    fn key_of(&mut self, input: &[u8], out: &mut Vec<u8>) {
        tuned::key_of(input, out);
    }
}
