//! A tuned engine, and the means to measure engines against it.

pub mod comparison;
pub mod engines;
pub mod measure;
pub mod memory;
pub mod stopwatch;
pub mod table;
pub mod tuned;
pub mod workloads;
