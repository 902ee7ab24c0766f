//! Writes an input while it is being worked, so that every ticket named in it is right.

use crate::tuned::Stepper;

const RECORD: usize = 40;

#[derive(Clone, Copy, PartialEq, Eq, Debug)]
pub enum Phase {
    Dark,
    Lit,
    Rfe,
    Halted,
}

#[derive(Clone, Copy, PartialEq, Eq)]
pub enum Ranking {
    Time = 1,
    Size = 2,
}

#[derive(Clone, Copy, PartialEq, Eq)]
pub enum Side {
    Buy,
    Sell,
}

#[derive(Clone, Copy, PartialEq, Eq)]
pub enum Kind {
    Plain,
    Brief,
}

#[derive(Clone, Copy)]
pub struct Terms {
    pub bid: u32,
    pub bid_pieces: u32,
    pub ask: u32,
    pub ask_pieces: u32,
    pub flagged: bool,
}

/// An order that stands.
#[derive(Clone, Copy)]
pub struct Standing {
    pub ticket: u32,
    pub sender: u32,
    pub pieces: u32,
}

/// The input written so far, and where it has brought the book.
pub struct Script {
    bytes: Vec<u8>,
    engine: Stepper,
    pub phase: Phase,
    pub standing: Vec<Standing>,
    pub seconds: u32,
}

impl Script {
    pub fn new() -> Self {
        Script {
            bytes: Vec::new(),
            engine: Stepper::default(),
            phase: Phase::Dark,
            standing: Vec::new(),
            seconds: 0,
        }
    }

    pub fn into_bytes(self) -> Vec<u8> {
        self.bytes
    }

    pub fn records(&self) -> usize {
        self.bytes.len() / RECORD
    }

    pub fn open(&mut self, reference: u32, reply_time: u32, ranking: Ranking) {
        self.standing.clear();
        self.seconds = 0;
        self.phase = Phase::Dark;
        self.put(b"OL", reply_time, [reference, ranking as u32, 0, 0]);
    }

    pub fn enter(&mut self, sender: u32, side: Side, kind: Kind, price: u32, pieces: u32) {
        let head = match (side, kind) {
            (Side::Buy, Kind::Plain) => b"EB",
            (Side::Sell, Kind::Plain) => b"ES",
            (Side::Buy, Kind::Brief) => b"Eb",
            (Side::Sell, Kind::Brief) => b"Es",
        };
        let record = record(head, sender, [price, pieces, 0, 0]);
        self.bytes.extend_from_slice(&record);
        let written = self.engine.step(&record);
        // The order stands before its own slips are read.
        let answer = &written[written.len() - RECORD..];
        if answer[0] == b'A' {
            let ticket = number(&answer[7..15]);
            self.standing.push(Standing {
                ticket,
                sender,
                pieces,
            });
        }
        follow(written, &mut self.phase, &mut self.standing);
    }

    pub fn cancel(&mut self, sender: u32, ticket: u32) {
        self.put(b"C-", sender, [ticket, 0, 0, 0]);
    }

    pub fn quote(&mut self, terms: Terms) {
        self.put_terms(if terms.flagged { b"QF" } else { b"QP" }, terms);
    }

    pub fn validate(&mut self, terms: Terms) {
        self.put_terms(if terms.flagged { b"VF" } else { b"VP" }, terms);
    }

    pub fn clock(&mut self, seconds: u32) {
        self.seconds = seconds;
        self.put(b"T-", seconds, [0; 4]);
    }

    pub fn withdraw(&mut self) {
        self.put(b"W-", 0, [0; 4]);
    }

    pub fn decline(&mut self) {
        self.put(b"D-", 0, [0; 4]);
    }

    pub fn renew(&mut self) {
        self.put(b"R-", 0, [0; 4]);
    }

    pub fn close(&mut self) {
        self.put(b"X-", 0, [0; 4]);
    }

    /// Any forty bytes.
    pub fn raw(&mut self, record: [u8; RECORD]) {
        self.bytes.extend_from_slice(&record);
        follow(
            self.engine.step(&record),
            &mut self.phase,
            &mut self.standing,
        );
    }

    fn put_terms(&mut self, head: &[u8; 2], terms: Terms) {
        self.put(
            head,
            0,
            [terms.bid, terms.bid_pieces, terms.ask, terms.ask_pieces],
        );
    }

    fn put(&mut self, head: &[u8; 2], small: u32, fields: [u32; 4]) {
        self.raw(record(head, small, fields));
    }
}

pub fn record(head: &[u8; 2], small: u32, fields: [u32; 4]) -> [u8; RECORD] {
    let [one, two, three, four] = fields;
    let text = format!("{small:05}{one:08}{two:08}{three:08}{four:08}\n");
    let mut record = [0; RECORD];
    record[..2].copy_from_slice(head);
    record[2..].copy_from_slice(text.as_bytes());
    record
}

/// Brings phase and standing orders up to what an engine has written.
fn follow(written: &[u8], phase: &mut Phase, standing: &mut Vec<Standing>) {
    for record in written.chunks_exact(RECORD) {
        let field = |place: usize| number(&record[7 + 8 * place..15 + 8 * place]);
        match record[0] {
            b'T' => {
                lower(standing, field(2), field(1));
                lower(standing, field(3), field(1));
            }
            b'G' => lower(standing, field(0), field(1)),
            b'A' => *phase = phase_of(record[1]),
            _ => {}
        }
    }
}

fn lower(standing: &mut Vec<Standing>, ticket: u32, pieces: u32) {
    let Some(place) = standing.iter().position(|order| order.ticket == ticket) else {
        return;
    };
    standing[place].pieces -= pieces;
    if standing[place].pieces == 0 {
        standing.swap_remove(place);
    }
}

fn phase_of(mark: u8) -> Phase {
    match mark {
        b'L' => Phase::Lit,
        b'R' => Phase::Rfe,
        b'H' => Phase::Halted,
        _ => Phase::Dark,
    }
}

fn number(digits: &[u8]) -> u32 {
    digits
        .iter()
        .fold(0, |value, digit| value * 10 + u32::from(digit - b'0'))
}
