//! Which call comes next, by what the phase allows.

use super::mood::Mood;
use super::random::Random;
use crate::engine::book::Phase;

#[derive(Clone, Copy)]
pub enum Choice {
    Enter,
    Cancel,
    Quote,
    Validate,
    Clock,
    Withdraw,
    Decline,
    Renew,
}

type Weights = [(u64, Choice); 8];

/// Calls that are refused in the phase come too, but seldom.
pub fn choose(random: &mut Random, mood: &Mood, phase: Phase) -> Choice {
    let weights = match phase {
        Phase::Dark => in_dark(mood),
        Phase::Lit => in_lit(mood),
        Phase::InRfe(_) => in_rfe(mood),
        Phase::Halted { .. } => in_halt(mood),
    };
    random.weighted(&weights)
}

fn in_dark(mood: &Mood) -> Weights {
    [
        (60, Choice::Quote),
        (mood.cancel, Choice::Cancel),
        (4, Choice::Enter),
        (3, Choice::Clock),
        (mood.renew, Choice::Renew),
        (2, Choice::Withdraw),
        (2, Choice::Validate),
        (2, Choice::Decline),
    ]
}

fn in_lit(mood: &Mood) -> Weights {
    [
        (60, Choice::Enter),
        (mood.cancel, Choice::Cancel),
        (mood.requote, Choice::Quote),
        (mood.renew, Choice::Renew),
        (2, Choice::Clock),
        (1, Choice::Withdraw),
        (1, Choice::Validate),
        (1, Choice::Decline),
    ]
}

fn in_rfe(mood: &Mood) -> Weights {
    [
        (60, Choice::Enter),
        (mood.cancel, Choice::Cancel),
        (2 * mood.reply, Choice::Validate),
        (mood.reply, Choice::Clock),
        (mood.reply, Choice::Withdraw),
        (mood.reply, Choice::Decline),
        (1, Choice::Renew),
        (1, Choice::Quote),
    ]
}

fn in_halt(mood: &Mood) -> Weights {
    [
        (40, Choice::Clock),
        (mood.cancel, Choice::Cancel),
        (4, Choice::Enter),
        (4, Choice::Quote),
        (2, Choice::Validate),
        (2, Choice::Withdraw),
        (2, Choice::Decline),
        (2, Choice::Renew),
    ]
}
