//! The tuned engine writes what the second one writes.

use bench::tuned;
use reference::engine::key_of;
use reference::generate::{days, most_slips};

fn assert_same(name: &str, input: &[u8]) {
    let mut written = Vec::new();
    tuned::key_of(input, &mut written);
    assert!(written == key_of(input), "{name}");
}

#[test]
fn on_random_days() {
    for seed in 0..40 {
        assert_same(&format!("seed {seed}"), &days(seed, 1_500));
    }
}

#[test]
fn on_the_longest_cross() {
    assert_same("most slips", &most_slips());
}

#[test]
fn on_every_short_end() {
    let input = days(5, 60);
    for len in 0..input.len().min(400) {
        assert_same(&format!("{len} bytes"), &input[..len]);
    }
}
