//! Inputs to compare engines on.

mod caller;
mod choose_call;
mod choose_figures;
mod days;
mod mood;
mod random;
mod record;
mod special;
mod spoil;

pub use days::{days, mood_name};
pub use special::{most_slips, used_up};
