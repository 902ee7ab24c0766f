//! The worked examples of the records page, and the edge values of the rules.

use super::key_of;

fn key(input: &str) -> String {
    let mut out = Vec::new();
    key_of(input.as_bytes(), &mut out);
    String::from_utf8(out).expect("records are ASCII")
}

/// The mark, number and field of the last refusal, or the letter and mark of the last record.
fn last(input: &[&str]) -> String {
    let written = key(&records(input));
    let ends = written
        .lines()
        .rev()
        .skip_while(|line| line.starts_with('Z'));
    let line = ends.take(1).next().expect("something was written");
    match &line[..1] {
        "N" => format!(
            "{}{}/{}",
            &line[1..2],
            line[2..7].trim_start_matches('0'),
            &line[14..15]
        ),
        _ => line[..2].to_string(),
    }
}

/// Records told with spaces and without leading zeros: letter and mark, small number, fields.
fn records(lines: &[&str]) -> String {
    lines.iter().map(|line| record(line)).collect()
}

fn record(line: &str) -> String {
    let mut words = line.split_whitespace();
    let head = words.next().expect("letter and mark");
    let small = words.next().unwrap_or("0");
    let fields: String = (0..4)
        .map(|_| format!("{:0>8}", words.next().unwrap_or("0")))
        .collect();
    format!("{head}{small:0>5}{fields}\n")
}

#[test]
fn first_example() {
    assert_eq!(key(FIRST_READ), FIRST_WRITTEN);
}

#[test]
fn second_example() {
    assert_eq!(key(SECOND_READ), SECOND_WRITTEN);
}

#[test]
fn empty_input() {
    assert_eq!(key(""), "");
}

const DAY: &str = "OL 10 100000 1";
const FLAGGED: &str = "QF 0 99000 500 101000 500";
const WIDE: &str = "QP 0 100 500 199900 500";

#[test]
fn ticks_of_section_16() {
    let low = |price: &str| last(&["OL 10 300 1", "QP 0 5 5 1900 5", &format!("EB 1 {price} 1")]);
    assert_eq!(low("50"), "AL");
    assert_eq!(low("51"), "F5/1");
    assert_eq!(low("55"), "AL");
    assert_eq!(low("1000"), "AL");
    assert_eq!(low("1005"), "F5/1");
    assert_eq!(low("1010"), "AL");
    assert_eq!(low("0"), "F5/1");
}

#[test]
fn limit_1_of_section_16() {
    assert_eq!(last(&[DAY, WIDE, "ES 1 200000 1"]), "AL");
    assert_eq!(last(&[DAY, WIDE, "ES 1 200100 1"]), "F6/1");
}

#[test]
fn limit_2_of_section_16() {
    assert_eq!(last(&[DAY, "QP 0 100 5 150000 5", "EB 1 150100 1"]), "AL");
    assert_eq!(last(&[DAY, "QP 0 100 5 150100 5", "EB 1 150100 1"]), "AH");
}

#[test]
fn pieces_of_section_16() {
    assert_eq!(last(&[DAY, WIDE, "EB 1 100000 500000"]), "AL");
    assert_eq!(last(&[DAY, WIDE, "EB 1 100000 500001"]), "F7/2");
}

#[test]
fn missed_rfe_with_price_outside() {
    let written = key(&records(&[
        DAY,
        FLAGGED,
        "EB 1 105000 100",
        "ES 2 95000 100",
        "T- 10",
    ]));
    let expected = [
        "AD 0 0 100000",
        "AL 0 1 100000",
        "AR 0 2 100000 2",
        "AR 0 3 100000 2",
        "G- 2 3 100",
        "AD 1 0 100000",
        "Z1 1 0 200 0 0",
        "Z2 0 0 100 0 100",
    ];
    assert_eq!(written, records(&expected));
}

#[test]
fn validated_rfe() {
    let reply = "VF 0 99000 500 101000 500";
    let written = key(&records(&[
        DAY,
        FLAGGED,
        "EB 1 105000 100",
        "ES 2 95000 100",
        reply,
    ]));
    let expected = [
        "AD 0 0 100000",
        "AL 0 1 100000",
        "AR 0 2 100000 2",
        "AR 0 3 100000 2",
        "T- 0 101000 100 2 0",
        "T- 0 99000 100 0 3",
        "AL 2 1 100000",
        "Z1 0 0 200 0 200",
        "Z2 0 0 0 0 0",
    ];
    assert_eq!(written, records(&expected));
}

#[test]
fn missed_rfe_with_price_inside() {
    let written = key(&records(&[
        DAY,
        FLAGGED,
        "EB 1 101000 100",
        "ES 2 100000 100",
        "T- 10",
    ]));
    let expected = [
        "AD 0 0 100000",
        "AL 0 1 100000",
        "AR 0 2 100000 2",
        "AR 0 3 100000 2",
        "T- 0 101000 100 2 3",
        "AD 1 0 100000",
        "Z1 0 0 200 0 200",
        "Z2 0 0 0 0 0",
    ];
    assert_eq!(written, records(&expected));
}

#[test]
fn a_short_last_piece_is_refused_before_the_day_is_closed() {
    let written = key(&(records(&[DAY]) + "W-000"));
    let expected = ["AD 0 0 100000", "NP 18", "Z1", "Z2"];
    assert_eq!(written, records(&expected));
}

#[test]
fn unreadable_records_of_the_records_page() {
    for line in [
        "W- 1",
        "QB 0 99000 500 101000 500",
        "OL 10 100000 3",
        "eB 8 101000 300",
    ] {
        assert_eq!(key(&record(line)), record("NP 18"), "{line}");
    }
}

#[test]
fn places_end_at_128() {
    let mut lines = vec![DAY, WIDE];
    lines.resize(2 + 128, "EB 1 90000 1");
    assert_eq!(last(&lines), "AL");
    lines.push("EB 1 90000 1");
    assert_eq!(last(&lines), "B8/0");
}

#[test]
fn numbers_end_at_a_million() {
    let mut lines = vec![DAY, WIDE];
    lines.resize(1_000_001, "Eb 1 90000 1");
    assert_eq!(last(&lines), "AL");
    lines.push("Eb 1 90000 1");
    assert_eq!(last(&lines), "B9/0");
    lines.push(WIDE);
    assert_eq!(last(&lines), "B9/0");
}

const FIRST_READ: &str = "\
OL0001000100000000000010000000000000000\n\
QF0000000099000000005000010100000000500\n\
ES0000700100000000001000000000000000000\n\
EB0000800101000000003000000000000000000\n\
VP0000000099000000005000010050000000500\n\
X-0000000000000000000000000000000000000\n";

const FIRST_WRITTEN: &str = "\
AD0000000000000001000000000000000000000\n\
AL0000000000001001000000000000000000000\n\
AL0000000000002001000000000000000000000\n\
T-0000000100000000001000000000300000002\n\
AR0000100000003001000000000000300000000\n\
T-0000000100500000002000000000300000000\n\
AL0000100000001001000000000000000000000\n\
Z10000000000000000004000000000000000400\n\
Z20000000000000000000000000000000000000\n";

const SECOND_READ: &str = "\
OI0000500020000000000020000000000000000\n\
QF0000000019500000010000002055000001000\n\
R-0000000000000000000000000000000000000\n\
ES0001100020000000002000000000000000000\n\
ES0001200020000000003000000000000000000\n\
ES0001100021000000000500000000000000000\n\
EB0001300060100000004000000000000000000\n\
E-0001300020550000004000000000000000000\n\
EB0001300020550000004000000000000000000\n\
EB0001400020550000002500000000000000000\n\
Es0001500020000000001000000000000000000\n\
ES0001600020000000001200000000000000000\n\
T-0000400000000000000000000000000000000\n\
T-0000500000000000000000000000000000000\n\
VF0000000019500000010000002055000001000\n\
C-0001200000004000000000000000000000000\n\
X-0000000000000000000000000000000000000\n";

const SECOND_WRITTEN: &str = "\
AD0000000000000000200000000000000000000\n\
AL0000000000001000200000000000000000000\n\
AL0000000000000000200250000000000000000\n\
AL0000000000002000200250000000000000000\n\
AL0000000000003000200250000000000000000\n\
AL0000000000004000200250000000000000000\n\
NF0000600000001000000000000000000000000\n\
NP0001800000000000000000000000000000000\n\
T-0000000020000000003000000000500000003\n\
T-0000000020000000001000000000500000002\n\
AL0000200000005000200250000000000000000\n\
T-0000000020000000001000000000600000002\n\
AR0000100000006000200250000000600000000\n\
AR0000000000007000200250000000600000000\n\
AR0000000000008000200250000000600000000\n\
AR0000000000000000200250000000600000000\n\
T-0000000020550000001200000000600000008\n\
T-0000000020550000000300000000600000007\n\
G-0000300000007000000700000000000000000\n\
AD0000300000000000200250000000000000000\n\
NS0001400000000000000000000000000000000\n\
NB0001000000000000000000000000000000000\n\
Z10000100000000000014200000000000001300\n\
Z20000000000000000000700000000000000050\n";
