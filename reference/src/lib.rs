//! A second engine for one day of one book, and the means to compare another engine with it.

pub mod compare;
pub mod coverage;
pub mod engine;
pub mod generate;
pub mod laws;
pub mod transcript;
