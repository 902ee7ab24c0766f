//! Reading records (RECORDS.md, "Records read").

use super::calls::{DayTerms, OrderTerms};
use super::order::{Kind, Side};
use super::quote::QuoteTerms;
use super::ranking::Ranking;
use super::refusal::Refusal;
use super::sheet::Sheet;

pub const RECORD_BYTES: usize = 40;

/// What a record asks for.
pub enum Call {
    Open(DayTerms),
    Enter(OrderTerms),
    Cancel { sender: u64, ticket: u64 },
    Quote(QuoteTerms),
    Validate(QuoteTerms),
    Clock { seconds: u64 },
    Withdraw,
    Decline,
    Renew,
    Close,
}

/// The parts of a record before anything is made of them.
struct Parts {
    letter: u8,
    mark: u8,
    small: u64,
    fields: [u64; 4],
}

pub fn read(piece: &[u8]) -> Result<Call, Refusal> {
    let parts = Parts::cut(piece).ok_or(Refusal::Unreadable)?;
    parts.call().ok_or(Refusal::Unreadable)
}

impl Parts {
    fn cut(piece: &[u8]) -> Option<Parts> {
        if piece.len() != RECORD_BYTES || piece[39] != b'\n' {
            return None;
        }
        Some(Parts {
            letter: piece[0],
            mark: piece[1],
            small: number(&piece[2..7])?,
            fields: [
                number(&piece[7..15])?,
                number(&piece[15..23])?,
                number(&piece[23..31])?,
                number(&piece[31..39])?,
            ],
        })
    }

    fn call(&self) -> Option<Call> {
        match self.letter {
            b'O' => self.open(),
            b'E' => self.enter(),
            b'C' => self.cancel(),
            b'Q' => self.quote_terms().map(Call::Quote),
            b'V' => self.quote_terms().map(Call::Validate),
            b'T' => self.clock(),
            b'W' => self.bare(Call::Withdraw),
            b'D' => self.bare(Call::Decline),
            b'R' => self.bare(Call::Renew),
            b'X' => self.bare(Call::Close),
            _ => None,
        }
    }

    fn open(&self) -> Option<Call> {
        let [reference, ranking, 0, 0] = self.fields else {
            return None;
        };
        let sheet = match self.mark {
            b'L' => Sheet::Leveraged,
            b'I' => Sheet::Investment,
            _ => return None,
        };
        let ranking = match ranking {
            1 => Ranking::ByTime,
            2 => Ranking::BySize,
            _ => return None,
        };
        Some(Call::Open(DayTerms {
            sheet,
            ranking,
            reference,
            reply_time: self.small,
        }))
    }

    fn enter(&self) -> Option<Call> {
        let [price, pieces, 0, 0] = self.fields else {
            return None;
        };
        let (side, kind) = match self.mark {
            b'B' => (Side::Buy, Kind::Plain),
            b'S' => (Side::Sell, Kind::Plain),
            b'b' => (Side::Buy, Kind::ExecuteAndCancel),
            b's' => (Side::Sell, Kind::ExecuteAndCancel),
            _ => return None,
        };
        Some(Call::Enter(OrderTerms {
            sender: self.small,
            side,
            price,
            pieces,
            kind,
        }))
    }

    fn cancel(&self) -> Option<Call> {
        let (b'-', [ticket, 0, 0, 0]) = (self.mark, self.fields) else {
            return None;
        };
        Some(Call::Cancel {
            sender: self.small,
            ticket,
        })
    }

    fn quote_terms(&self) -> Option<QuoteTerms> {
        let (0, [bid, bid_pieces, ask, ask_pieces]) = (self.small, self.fields) else {
            return None;
        };
        let flagged = match self.mark {
            b'F' => true,
            b'P' => false,
            _ => return None,
        };
        Some(QuoteTerms {
            bid,
            bid_pieces,
            ask,
            ask_pieces,
            flagged,
        })
    }

    fn clock(&self) -> Option<Call> {
        let (b'-', [0, 0, 0, 0]) = (self.mark, self.fields) else {
            return None;
        };
        Some(Call::Clock {
            seconds: self.small,
        })
    }

    /// A call whose record uses neither mark nor digits.
    fn bare(&self, call: Call) -> Option<Call> {
        let is_bare = self.mark == b'-' && self.small == 0 && self.fields == [0; 4];
        is_bare.then_some(call)
    }
}

fn number(digits: &[u8]) -> Option<u64> {
    let mut number = 0;
    for &digit in digits {
        if !digit.is_ascii_digit() {
            return None;
        }
        number = number * 10 + u64::from(digit - b'0');
    }
    Some(number)
}

#[cfg(test)]
mod tests {
    use super::*;

    #[test]
    fn the_unreadable_records_of_the_document() {
        let unreadable = [
            "W-0000100000000000000000000000000000000\n",
            "QB0000000099000000005000010100000000500\n",
            "OL0001000100000000000030000000000000000\n",
            "eB0000800101000000003000000000000000000\n",
            "EB00008+0101000000003000000000000000000\n",
        ];
        for record in unreadable {
            assert_eq!(record.len(), RECORD_BYTES);
            assert!(read(record.as_bytes()).is_err(), "{record}");
        }
    }

    #[test]
    fn values_out_of_range_can_be_read() {
        let record = "EB0000000000000000000000000000000000000\n";
        assert!(read(record.as_bytes()).is_ok());
    }

    #[test]
    fn a_record_needs_its_newline_and_its_length() {
        assert!(read(b"X-0000000000000000000000000000000000000 ").is_err());
        assert!(read(b"X-000000000000000000000000000000000000\n").is_err());
    }
}
