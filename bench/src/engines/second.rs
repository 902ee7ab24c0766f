use super::Engine;

/// The plain engine that the proved one is compared with.
pub struct Second;

impl Engine for Second {
    fn name(&self) -> &'static str {
        "second"
    }

    fn key_of(&mut self, input: &[u8], out: &mut Vec<u8>) {
        *out = reference::engine::key_of(input);
    }
}
