//! Moods: what the days of an input are like.

/// Chances are in percent unless they are said to be in a thousand.
pub struct Mood {
    pub name: &'static str,
    /// In a thousand: records that cannot be read.
    pub unreadable: u64,
    /// In a thousand: figures that a call refuses.
    pub wrong: u64,
    /// In a thousand: closing the day.
    pub close: u64,
    /// Quotes that are flagged.
    pub flagged: u64,
    pub execute_and_cancel: u64,
    /// Orders that reach the quote.
    pub reaching: u64,
    /// Orders between bid and ask, of those that do not reach.
    pub inside: u64,
    /// Orders and quotes that are priced at the edge of a limit.
    pub edges: u64,
    /// How far a quote's middle moves, in percent of the width of Limit 1.
    pub swing: u64,
    /// Half the width of a quote, at most so many percent of its middle.
    pub width: u64,
    /// The most pieces on a side of a quote.
    pub quote_pieces: u64,
    /// The most pieces of an order.
    pub order_pieces: u64,
    /// Weights of calls, against an enter's weight of 60.
    pub cancel: u64,
    pub requote: u64,
    pub renew: u64,
    pub reply: u64,
    /// Whether the day begins shortly before its last second.
    pub late: bool,
}

const MIXED: Mood = Mood {
    name: "mixed",
    unreadable: 10,
    wrong: 30,
    close: 4,
    flagged: 60,
    execute_and_cancel: 25,
    reaching: 35,
    inside: 50,
    edges: 1,
    swing: 20,
    width: 5,
    quote_pieces: 60,
    order_pieces: 20,
    cancel: 8,
    requote: 5,
    renew: 3,
    reply: 6,
    late: false,
};

/// Long RFEs with many orders waiting on both sides.
const ASKING: Mood = Mood {
    name: "asking",
    close: 2,
    flagged: 95,
    reaching: 30,
    inside: 70,
    quote_pieces: 200,
    reply: 1,
    ..MIXED
};

/// Quotes that are far from the dynamic price.
const HALTING: Mood = Mood {
    name: "halting",
    flagged: 50,
    reaching: 25,
    inside: 80,
    swing: 95,
    width: 30,
    reply: 4,
    ..MIXED
};

/// RFEs on wide quotes whose opener thinks again.
const RETREATING: Mood = Mood {
    name: "retreating",
    flagged: 95,
    reaching: 6,
    inside: 95,
    swing: 90,
    width: 25,
    cancel: 20,
    reply: 1,
    ..MIXED
};

/// Orders that stand and fill the table.
const CROWDED: Mood = Mood {
    name: "crowded",
    close: 1,
    wrong: 15,
    execute_and_cancel: 3,
    reaching: 1,
    inside: 3,
    quote_pieces: 2_000,
    cancel: 4,
    requote: 1,
    ..MIXED
};

/// Plain quotes that are soon used up.
const TRADING: Mood = Mood {
    name: "trading",
    flagged: 10,
    reaching: 50,
    quote_pieces: 25,
    order_pieces: 30,
    requote: 10,
    ..MIXED
};

/// Figures that are refused, and records that cannot be read.
const CARELESS: Mood = Mood {
    name: "careless",
    unreadable: 100,
    wrong: 350,
    close: 12,
    swing: 80,
    width: 15,
    reply: 12,
    ..MIXED
};

/// Prices at the edges of the two limits.
const EDGY: Mood = Mood {
    name: "edgy",
    flagged: 40,
    reaching: 45,
    edges: 30,
    quote_pieces: 100,
    ..MIXED
};

/// The last seconds of a day, in which due seconds are never met.
const LATE: Mood = Mood {
    name: "late",
    close: 12,
    swing: 80,
    width: 20,
    late: true,
    ..MIXED
};

pub const MOODS: [&Mood; 9] = [
    &MIXED,
    &ASKING,
    &HALTING,
    &RETREATING,
    &CROWDED,
    &TRADING,
    &CARELESS,
    &EDGY,
    &LATE,
];
