//! A record read: its words, and whether it can be read.

use super::digits::{raw_of, value, ZEROS};
use super::lanes::{self, Form};

/// Bytes of a record.
pub const RECORD: usize = 40;

pub type Piece = [u8; RECORD];

const SMALL_MASK: u64 = 0x00FF_FFFF_FFFF_0000;
const SMALL_ZEROS: u64 = ZEROS & SMALL_MASK;

/// The parts of a record as they lie, digits still in ASCII.
#[derive(Clone, Copy)]
pub struct Words<'a>(&'a Piece);

impl<'a> Words<'a> {
    #[inline(always)]
    pub fn of(piece: &'a Piece) -> Self {
        Words(piece)
    }

    /// Letter, mark, small number, and the first digit of field 1.
    #[inline(always)]
    pub fn head(self) -> u64 {
        word_at::<0>(self.0)
    }

    #[inline(always)]
    pub fn letter(self) -> u8 {
        self.0[0]
    }

    #[inline(always)]
    pub fn mark(self) -> u8 {
        self.0[1]
    }

    /// The digits of the small number, in ASCII and in their place.
    #[inline(always)]
    pub fn small_raw(self) -> u64 {
        self.head() & SMALL_MASK
    }

    #[inline(always)]
    pub fn small_is_zero(self) -> bool {
        self.small_raw() == SMALL_ZEROS
    }

    #[inline(always)]
    pub fn small(self) -> u32 {
        value((self.small_raw() ^ SMALL_ZEROS) << 8)
    }

    /// Field 1 as it lies.
    #[inline(always)]
    pub fn first_raw(self) -> u64 {
        word_at::<7>(self.0)
    }

    /// Field 2 as it lies.
    #[inline(always)]
    pub fn second_raw(self) -> u64 {
        word_at::<15>(self.0)
    }

    /// Field 3 as it lies.
    #[inline(always)]
    pub fn third_raw(self) -> u64 {
        word_at::<23>(self.0)
    }

    /// The numbers in fields 1 and 2.
    #[inline(always)]
    pub fn first_two(self) -> [u32; 2] {
        lanes::values(digits_at::<7>(self.0))
    }

    /// The numbers in fields 3 and 4.
    #[inline(always)]
    pub fn last_two(self) -> [u32; 2] {
        lanes::values(digits_at::<23>(self.0))
    }

    // Whether the record can be read as its letter asks.

    #[inline(always)]
    pub fn read_as_enter(self) -> bool {
        let upper = self.mark() & 0xDF;
        ((upper == b'B') | (upper == b'S')) & self.has(&ENTER)
    }

    #[inline(always)]
    pub fn read_as_cancel(self) -> bool {
        (self.mark() == b'-') & self.has(&CANCEL)
    }

    #[inline(always)]
    pub fn read_as_quote(self) -> bool {
        ((self.mark() == b'F') | (self.mark() == b'P')) & self.has(&QUOTE)
    }

    #[inline(always)]
    pub fn read_as_clock(self) -> bool {
        (self.mark() == b'-') & self.has(&CLOCK)
    }

    /// For withdraw, decline, renew and close, which use nothing but their letter.
    #[inline(always)]
    pub fn read_as_bare(self) -> bool {
        (self.mark() == b'-') & self.has(&BARE)
    }

    #[inline(always)]
    pub fn read_as_open(self) -> bool {
        let ranking = self.second_raw();
        let ranked = (ranking == raw_of(1)) | (ranking == raw_of(2));
        ((self.mark() == b'L') | (self.mark() == b'I')) & ranked & self.has(&OPEN)
    }

    #[inline(always)]
    fn has(self, form: &Form) -> bool {
        lanes::fits(self.0, form) & (self.0[RECORD - 1] == b'\n')
    }
}

static ENTER: Form = form([9, 9, 9, 0, 0]);
static CANCEL: Form = form([9, 9, 0, 0, 0]);
static QUOTE: Form = form([0, 9, 9, 9, 9]);
static CLOCK: Form = form([9, 0, 0, 0, 0]);
static BARE: Form = form([0; 5]);
static OPEN: Form = form([9, 9, 9, 0, 0]);

/// The form of records with these highest digits in the small number and the four fields.
const fn form(highest: [u8; 5]) -> Form {
    // Letter, mark and newline have tests of their own.
    let mut bytes = [u8::MAX; RECORD];
    let mut byte = 2;
    while byte < RECORD - 1 {
        bytes[byte] = if byte < 7 {
            highest[0]
        } else {
            highest[(byte + 1) / 8]
        };
        byte += 1;
    }
    Form::new(bytes)
}

#[inline(always)]
fn word_at<const AT: usize>(piece: &Piece) -> u64 {
    let mut bytes = [0; 8];
    bytes.copy_from_slice(&piece[AT..AT + 8]);
    u64::from_le_bytes(bytes)
}

#[inline(always)]
fn digits_at<const AT: usize>(piece: &Piece) -> [u8; 16] {
    let mut bytes = [0; 16];
    bytes.copy_from_slice(&piece[AT..AT + 16]);
    bytes
}
