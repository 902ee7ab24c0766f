//! The forms of records, read and written, as tables (RECORDS.md).

/// Which parts a record of one letter and some marks uses.
pub struct Form {
    pub letter: u8,
    pub marks: &'static [u8],
    pub uses_small: bool,
    /// How many of the four fields are used, from the first on.
    pub fields_used: usize,
}

const fn form(letter: u8, marks: &'static [u8], uses_small: bool, fields_used: usize) -> Form {
    Form {
        letter,
        marks,
        uses_small,
        fields_used,
    }
}

pub const READ: &[Form] = &[
    form(b'O', b"LI", true, 2),
    form(b'E', b"BSbs", true, 2),
    form(b'C', b"-", true, 1),
    form(b'Q', b"FP", false, 4),
    form(b'V', b"FP", false, 4),
    form(b'T', b"-", true, 0),
    form(b'W', b"-", false, 0),
    form(b'D', b"-", false, 0),
    form(b'R', b"-", false, 0),
    form(b'X', b"-", false, 0),
];

pub const WRITTEN: &[Form] = &[
    form(b'T', b"-", false, 4),
    form(b'G', b"-", true, 2),
    form(b'A', b"DLRH", true, 3),
    form(b'N', b"FBSP", true, 1),
    form(b'Z', b"1", true, 4),
    form(b'Z', b"2", false, 4),
];
