//! Refusals and how they are told (REFUSALS.md).
//!
//! Numbers 1 and 17 are not here: no record can bring them about.

/// The value of a call that a refusal is about.
#[derive(Clone, Copy, Debug, PartialEq, Eq)]
pub enum Field {
    None,
    PriceOrBid,
    Pieces,
    Ask,
    AskPieces,
    SenderOrSeconds,
}

impl Field {
    pub fn number(self) -> u64 {
        match self {
            Field::None => 0,
            Field::PriceOrBid => 1,
            Field::Pieces => 2,
            Field::Ask => 3,
            Field::AskPieces => 4,
            Field::SenderOrSeconds => 5,
        }
    }
}

#[derive(Clone, Copy, Debug, PartialEq, Eq)]
pub enum Layer {
    Figures,
    Book,
    Session,
    Program,
}

impl Layer {
    pub fn letter(self) -> u8 {
        match self {
            Layer::Figures => b'F',
            Layer::Book => b'B',
            Layer::Session => b'S',
            Layer::Program => b'P',
        }
    }
}

#[derive(Clone, Copy, Debug, PartialEq, Eq)]
pub enum Refusal {
    Sender,
    BookHalted,
    BookDark,
    Price(Field),
    BeyondLimit1(Field),
    PiecesNotAllowed(Field),
    NoFreePlace,
    NumbersUsedUp,
    NoSuchOrder,
    BidNotBelowAsk,
    RfeOpen,
    NoQuote,
    NotTheSummons,
    Reference,
    ReplyTime,
    Seconds,
    Unreadable,
    WrongDay,
}

impl Refusal {
    pub fn number(self) -> u64 {
        match self {
            Refusal::Sender => 2,
            Refusal::BookHalted => 3,
            Refusal::BookDark => 4,
            Refusal::Price(_) => 5,
            Refusal::BeyondLimit1(_) => 6,
            Refusal::PiecesNotAllowed(_) => 7,
            Refusal::NoFreePlace => 8,
            Refusal::NumbersUsedUp => 9,
            Refusal::NoSuchOrder => 10,
            Refusal::BidNotBelowAsk => 11,
            Refusal::RfeOpen => 12,
            Refusal::NoQuote => 13,
            Refusal::NotTheSummons => 14,
            Refusal::Reference | Refusal::ReplyTime => 15,
            Refusal::Seconds => 16,
            Refusal::Unreadable => 18,
            Refusal::WrongDay => 19,
        }
    }

    pub fn layer(self) -> Layer {
        match self.number() {
            2 | 5 | 6 | 7 | 11 => Layer::Figures,
            8..=10 => Layer::Book,
            18 | 19 => Layer::Program,
            _ => Layer::Session,
        }
    }

    pub fn field(self) -> Field {
        match self {
            Refusal::Price(field)
            | Refusal::BeyondLimit1(field)
            | Refusal::PiecesNotAllowed(field) => field,
            Refusal::Reference => Field::PriceOrBid,
            Refusal::BidNotBelowAsk => Field::Ask,
            Refusal::Sender | Refusal::ReplyTime | Refusal::Seconds => Field::SenderOrSeconds,
            _ => Field::None,
        }
    }
}
