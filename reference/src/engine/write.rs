//! Writing records (RECORDS.md, "Records written").

use super::book::Phase;
use super::calls::Answer;
use super::refusal::Refusal;
use super::report::Report;
use super::slip::Slip;

const UNUSED: u8 = b'-';

pub fn write_answer(out: &mut Vec<u8>, answer: &Answer) {
    for slip in &answer.slips {
        write_slip(out, slip);
    }
    let mark = match answer.phase {
        Phase::Dark => b'D',
        Phase::Lit => b'L',
        Phase::InRfe(_) => b'R',
        Phase::Halted { .. } => b'H',
    };
    let fields = [
        answer.number,
        answer.dynamic_price,
        answer.opening_ticket,
        0,
    ];
    write_record(out, b'A', mark, answer.slips.len() as u64, fields);
}

pub fn write_refusal(out: &mut Vec<u8>, refusal: Refusal) {
    let fields = [refusal.field().number(), 0, 0, 0];
    write_record(
        out,
        b'N',
        refusal.layer().letter(),
        refusal.number(),
        fields,
    );
}

/// Each total takes two fields of eight digits.
pub fn write_report(out: &mut Vec<u8>, report: &Report) {
    let halves = |total: u64| (total / 100_000_000, total % 100_000_000);
    let (accepted_high, accepted_low) = halves(report.totals.accepted);
    let (done_high, done_low) = halves(report.totals.done);
    let (out_high, out_low) = halves(report.totals.out);
    let (left_high, left_low) = halves(report.left);
    let first = [accepted_high, accepted_low, done_high, done_low];
    let second = [out_high, out_low, left_high, left_low];
    write_record(out, b'Z', b'1', report.orders_left, first);
    write_record(out, b'Z', b'2', 0, second);
}

fn write_slip(out: &mut Vec<u8>, slip: &Slip) {
    match *slip {
        Slip::Trade {
            price,
            pieces,
            buying_ticket,
            selling_ticket,
        } => {
            let fields = [price, pieces, buying_ticket, selling_ticket];
            write_record(out, b'T', UNUSED, 0, fields);
        }
        Slip::Out {
            cause,
            ticket,
            pieces,
        } => write_record(out, b'G', UNUSED, cause.number(), [ticket, pieces, 0, 0]),
    }
}

fn write_record(out: &mut Vec<u8>, letter: u8, mark: u8, small: u64, fields: [u64; 4]) {
    out.push(letter);
    out.push(mark);
    write_number(out, small, 5);
    for field in fields {
        write_number(out, field, 8);
    }
    out.push(b'\n');
}

fn write_number(out: &mut Vec<u8>, number: u64, digits: usize) {
    let text = format!("{number:0digits$}");
    out.extend_from_slice(text.as_bytes());
}
