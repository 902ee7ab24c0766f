//! The output: a cursor over bytes that were reserved up front.

use super::digits::{raw_of, ZEROS};
use super::input::RECORD;
use super::refusal::Refusal;

/// Writes whole records one after the other, without asking for room.
///
/// Room is reserved once: every record read writes one record, or three for X, and every slip
/// takes an order or a quote away that a record of its own had brought. With the O that each X
/// needs this is at most two records written for one read, and three more at the end.
pub struct Output<'a> {
    bytes: &'a mut Vec<u8>,
    at: *mut u8,
}

/// Why an order goes out, by the number that its slip tells.
#[derive(Clone, Copy)]
pub enum Cause {
    Cancelled = 1,
    Outside = 2,
    Brief = 3,
    Halted = 4,
}

const TRADE_HEAD: u64 = head(b'T', b'-');
const OUT_HEAD: u64 = head(b'G', b'-');

/// Letter, mark and a small number of 0.
pub const fn head(letter: u8, mark: u8) -> u64 {
    letter as u64 | (mark as u64) << 8 | ZEROS << 16
}

/// The head with a small number of at most 999.
#[inline(always)]
fn with_small(head: u64, small: u32) -> u64 {
    if small < 10 {
        return head + ((small as u64) << 48);
    }
    head + ((raw_of(small) - ZEROS) >> 8)
}

impl<'a> Output<'a> {
    /// Empties `bytes` and reserves for an input of `pieces` records.
    pub fn new(bytes: &'a mut Vec<u8>, pieces: usize) -> Self {
        bytes.clear();
        bytes.reserve((2 * pieces + 3) * RECORD);
        let at = bytes.as_mut_ptr();
        Output { bytes, at }
    }

    /// Makes what was written the content of the vector.
    pub fn finish(self) {
        let written = self.at as usize - self.bytes.as_ptr() as usize;
        assert!(written <= self.bytes.capacity());
        // SAFETY: the cursor started at the first byte and wrote every byte it passed.
        unsafe { self.bytes.set_len(written) }
    }

    #[inline(always)]
    pub fn refuse(&mut self, refusal: &Refusal) {
        self.put(&refusal.0);
    }

    #[inline(always)]
    pub fn answer(&mut self, head: u64, slips: u32, number: u64, price: u64, opening: u64) {
        self.record(with_small(head, slips), [number, price, opening, ZEROS]);
    }

    /// `taker_side` is 0 if the taker buys and 1 if it sells.
    #[inline(always)]
    pub fn trade(&mut self, price: u64, pieces: u32, taker_side: usize, taker: u64, partner: u64) {
        let parties = [[taker, partner], [partner, taker]][taker_side & 1];
        self.record(TRADE_HEAD, [price, raw_of(pieces), parties[0], parties[1]]);
    }

    #[inline(always)]
    pub fn out(&mut self, cause: Cause, ticket: u64, pieces: u64) {
        let head = OUT_HEAD + ((cause as u64) << 48);
        self.record(head, [ticket, pieces, ZEROS, ZEROS]);
    }

    pub fn report(&mut self, mark: u8, small: u32, first: u64, second: u64) {
        let fields = [long(first), long(second)];
        self.record(
            with_small(head(b'Z', mark), small),
            [fields[0][0], fields[0][1], fields[1][0], fields[1][1]],
        );
    }

    /// Field 1 overwrites the last byte of the head, which is not part of it.
    #[inline(always)]
    fn record(&mut self, head: u64, fields: [u64; 4]) {
        self.check_room();
        // SAFETY: `new` reserved room for every record that the input can bring about.
        unsafe {
            self.set(0, head);
            self.set(7, fields[0]);
            self.set(15, fields[1]);
            self.set(23, fields[2]);
            self.set(31, fields[3]);
            self.at.add(RECORD - 1).write(b'\n');
            self.at = self.at.add(RECORD);
        }
    }

    #[inline(always)]
    unsafe fn set(&mut self, offset: usize, word: u64) {
        self.at
            .add(offset)
            .cast::<[u8; 8]>()
            .write_unaligned(word.to_le_bytes());
    }

    #[inline(always)]
    fn put(&mut self, record: &[u8; RECORD]) {
        self.check_room();
        // SAFETY: as in `record`.
        unsafe {
            self.at.cast::<[u8; RECORD]>().write_unaligned(*record);
            self.at = self.at.add(RECORD);
        }
    }

    #[inline(always)]
    fn check_room(&self) {
        let end = self.bytes.as_ptr() as usize + self.bytes.capacity();
        debug_assert!(self.at as usize + RECORD <= end);
    }
}

/// A number of 16 digits in two fields.
fn long(number: u64) -> [u64; 2] {
    [
        raw_of((number / 100_000_000) as u32),
        raw_of((number % 100_000_000) as u32),
    ]
}
