//! The engines that are measured, each behind the same interface.

#[cfg(feature = "proved")]
mod proved;
mod second;
mod tuned;

#[cfg(feature = "proved")]
pub use proved::Proved;
pub use second::Second;
pub use tuned::Tuned;

pub trait Engine {
    fn name(&self) -> &'static str;

    /// Leaves the whole output for a whole input in `out`, whatever it held.
    fn key_of(&mut self, input: &[u8], out: &mut Vec<u8>);
}

/// All engines that this build has, the tuned one first.
pub fn all() -> Vec<Box<dyn Engine>> {
    vec![
        Box::new(Tuned),
        Box::new(Second),
        #[cfg(feature = "proved")]
        Box::new(Proved),
    ]
}

pub fn by_name(name: &str) -> Option<Box<dyn Engine>> {
    all().into_iter().find(|engine| engine.name() == name)
}

/// Runs an engine. A function of its own, so that a profiler can be told to count here only.
#[inline(never)]
pub fn run(engine: &mut dyn Engine, input: &[u8], out: &mut Vec<u8>) {
    engine.key_of(input, out);
}
