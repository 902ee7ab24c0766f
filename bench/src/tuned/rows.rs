//! The 128 rows of the book, and where a ticket's row is.

/// Orders that can stand.
pub const ROWS: usize = 128;

/// Numbers that a day gives out.
pub const NUMBERS: u32 = 1_000_000;

const SENDER_MASK: u64 = 0x00FF_FFFF_FFFF_0000;
const BRIEF_BIT: u64 = 0x2000;

/// An order. Digits are kept as they came, so that slips are copied and not formatted.
#[derive(Clone, Copy)]
#[repr(C, align(32))]
pub struct Row {
    /// Ticket as digits; 0 marks a free row.
    pub ticket: u64,
    /// Price as digits.
    pub price: u64,
    /// Mark and sender as they lie in the record's head.
    pub tag: u64,
    pub pieces: u32,
    /// Signed price.
    pub signed: i32,
}

impl Row {
    const FREE: Row = Row {
        ticket: 0,
        price: 0,
        tag: 0,
        pieces: 0,
        signed: 0,
    };

    /// Buy 0, sell 1: the lowest bit of the marks B, b and S, s.
    #[inline(always)]
    pub fn side(&self) -> usize {
        (self.tag >> 8) as usize & 1
    }

    #[inline(always)]
    pub fn sender(&self) -> u64 {
        self.tag & SENDER_MASK
    }

    /// An execute-and-cancel order: its mark is a small letter.
    #[inline(always)]
    pub fn is_brief(&self) -> bool {
        self.tag & BRIEF_BIT != 0
    }

    #[inline(always)]
    pub fn stands(&self) -> bool {
        self.ticket != 0
    }

    /// A word that compares as the ticket does.
    #[inline(always)]
    pub fn age(&self) -> u64 {
        self.ticket.swap_bytes()
    }
}

/// The rows, a stack of the free ones, and for each ticket the row it was given.
pub struct Rows {
    rows: [Row; ROWS],
    free: [u8; ROWS],
    used: u8,
    /// The most that were ever in use; rows from there on are untouched.
    most_used: u8,
    /// One byte for each number. A stale one does no harm: the row tells its own ticket.
    places: Box<[u8]>,
}

impl Rows {
    pub fn new() -> Self {
        Rows {
            rows: [Row::FREE; ROWS],
            free: std::array::from_fn(|row| row as u8),
            used: 0,
            most_used: 0,
            places: vec![0; NUMBERS as usize + 1].into_boxed_slice(),
        }
    }

    pub fn clear(&mut self) {
        self.rows = [Row::FREE; ROWS];
        self.free = std::array::from_fn(|row| row as u8);
        self.used = 0;
        self.most_used = 0;
    }

    #[inline(always)]
    pub fn used(&self) -> u8 {
        self.used
    }

    #[inline(always)]
    pub fn is_full(&self) -> bool {
        self.used as usize >= ROWS
    }

    #[inline(always)]
    pub fn at(&self, row: u8) -> &Row {
        &self.rows[row as usize % ROWS]
    }

    #[inline(always)]
    pub fn at_mut(&mut self, row: u8) -> &mut Row {
        &mut self.rows[row as usize % ROWS]
    }

    /// Gives the order `number` a free row.
    #[inline(always)]
    pub fn place(&mut self, number: u32, order: Row) -> u8 {
        let row = self.free[self.used as usize % ROWS];
        self.used += 1;
        self.most_used = self.most_used.max(self.used);
        *self.at_mut(row) = order;
        if let Some(place) = self.places.get_mut(number as usize) {
            *place = row;
        }
        row
    }

    #[inline(always)]
    pub fn release(&mut self, row: u8) {
        self.at_mut(row).ticket = 0;
        self.used = self.used.wrapping_sub(1);
        self.free[self.used as usize % ROWS] = row;
    }

    /// The row that the standing order with this number has.
    #[inline(always)]
    pub fn row_of(&self, number: u32) -> u8 {
        self.places.get(number as usize).copied().unwrap_or(0)
    }

    /// The rows of all standing orders.
    pub fn standing(&self) -> impl Iterator<Item = u8> + '_ {
        (0..self.most_used).filter(|&row| self.at(row).stands())
    }

    /// The row of the standing order with this ticket, told as a number and as digits.
    #[inline(always)]
    pub fn find(&self, number: u32, ticket: u64) -> Option<u8> {
        let row = *self.places.get(number as usize)?;
        (self.at(row).ticket == ticket).then_some(row)
    }
}
