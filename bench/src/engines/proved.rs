use std::mem::MaybeUninit;

use super::Engine;

/// The proved engine, from the library that build.rs links.
pub struct Proved;

mod port {
    extern "C" {
        /// Bytes written to `out`, or `u64::MAX` if it is too small.
        pub fn bojuaty_key(input: *const u8, input_len: usize, out: *mut u8, out_len: usize) -> u64;
    }
}

impl Engine for Proved {
    fn name(&self) -> &'static str {
        "proved"
    }

    fn key_of(&mut self, input: &[u8], out: &mut Vec<u8>) {
        out.clear();
        out.reserve(longest_output(input.len()));
        let written = key_into(input, out.spare_capacity_mut());
        let written = written.expect("there is room for every record");
        // SAFETY: the library has written so many bytes from the first one on.
        unsafe { out.set_len(written) };
    }
}

/// Two records for every one read, and three at the end of the input.
fn longest_output(input_len: usize) -> usize {
    (2 * input_len.div_ceil(40) + 3) * 40
}

/// Writes the output for an input to the start of `out`; `None` if it does not fit.
///
/// `out` is not filled with zeros first: that would be counted as work of the engine.
fn key_into(input: &[u8], out: &mut [MaybeUninit<u8>]) -> Option<usize> {
    let (start, len) = (out.as_mut_ptr().cast(), out.len());
    // SAFETY: both slices are told with their lengths and lent for the call only, and the library
    // reads nothing from `out`.
    let written = unsafe { port::bojuaty_key(input.as_ptr(), input.len(), start, len) };
    usize::try_from(written)
        .ok()
        .filter(|&written| written <= len)
}
