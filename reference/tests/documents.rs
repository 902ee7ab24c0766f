//! The two worked examples of RECORDS.md and the edge values of RULES.md, section 16.
//!
//! All expected records are taken from the documents.

mod common;

use common::records;
use reference::engine::key_of;

/// What the second engine writes, as text.
fn told(input: &str) -> String {
    String::from_utf8(key_of(&records(input))).unwrap()
}

fn text(expected: &str) -> String {
    String::from_utf8(records(expected)).unwrap()
}

/// The last record written before the report at the end of the input.
fn last_answer(input: &str) -> String {
    let told = told(input);
    let lines: Vec<&str> = told.lines().collect();
    lines[lines.len() - 3].to_string()
}

#[test]
fn first_example() {
    let input = include_bytes!("examples/first.in");
    assert_eq!(key_of(input), include_bytes!("examples/first.out"));
}

#[test]
fn second_example() {
    let input = include_bytes!("examples/second.in");
    assert_eq!(key_of(input), include_bytes!("examples/second.out"));
}

#[test]
fn empty_input_gives_empty_output() {
    assert!(key_of(b"").is_empty());
}

/// Reference 100,000, leveraged, by time, reply time 10; a flagged quote of 500 pieces.
const COMMON: &str = "
    OL 00010 00100000 00000001 00000000 00000000
    QF 00000 00099000 00000500 00101000 00000500
";

const COMMON_TOLD: &str = "
    AD 00000 00000000 00100000 00000000 00000000
    AL 00000 00000001 00100000 00000000 00000000
";

/// Buy 100 at 105,000 and sell 100 at 95,000.
const OUTSIDE: &str = "
    EB 00001 00105000 00000100 00000000 00000000
    ES 00002 00095000 00000100 00000000 00000000
";

const WAITING_TOLD: &str = "
    AR 00000 00000002 00100000 00000002 00000000
    AR 00000 00000003 00100000 00000002 00000000
";

#[test]
fn rfe_missed_with_the_price_outside() {
    let clock = "T- 00010 00000000 00000000 00000000 00000000";
    let expected = "
        G- 00002 00000003 00000100 00000000 00000000
        AD 00001 00000000 00100000 00000000 00000000
        Z1 00001 00000000 00000200 00000000 00000000
        Z2 00000 00000000 00000100 00000000 00000100
    ";
    assert_eq!(
        told(&[COMMON, OUTSIDE, clock].concat()),
        text(&[COMMON_TOLD, WAITING_TOLD, expected].concat())
    );
}

#[test]
fn rfe_validated_unchanged() {
    let validate = "
        T- 00009 00000000 00000000 00000000 00000000
        VF 00000 00099000 00000500 00101000 00000500
    ";
    let expected = "
        AR 00000 00000000 00100000 00000002 00000000
        T- 00000 00101000 00000100 00000002 00000000
        T- 00000 00099000 00000100 00000000 00000003
        AL 00002 00000001 00100000 00000000 00000000
        Z1 00000 00000000 00000200 00000000 00000200
        Z2 00000 00000000 00000000 00000000 00000000
    ";
    assert_eq!(
        told(&[COMMON, OUTSIDE, validate].concat()),
        text(&[COMMON_TOLD, WAITING_TOLD, expected].concat())
    );
}

#[test]
fn rfe_validated_with_an_ask_that_is_used_up() {
    let validate = "VF 00000 00099000 00000500 00101000 00000100";
    let expected = "
        T- 00000 00101000 00000100 00000002 00000000
        AD 00001 00000001 00100000 00000000 00000000
        Z1 00001 00000000 00000200 00000000 00000100
        Z2 00000 00000000 00000000 00000000 00000100
    ";
    assert_eq!(
        told(&[COMMON, OUTSIDE, validate].concat()),
        text(&[COMMON_TOLD, WAITING_TOLD, expected].concat())
    );
}

#[test]
fn rfe_missed_with_the_price_inside() {
    let inside = "
        EB 00001 00101000 00000100 00000000 00000000
        ES 00002 00100000 00000100 00000000 00000000
        T- 00010 00000000 00000000 00000000 00000000
    ";
    let expected = "
        T- 00000 00101000 00000100 00000002 00000003
        AD 00001 00000000 00100000 00000000 00000000
        Z1 00000 00000000 00000200 00000000 00000200
        Z2 00000 00000000 00000000 00000000 00000000
    ";
    assert_eq!(
        told(&[COMMON, inside].concat()),
        text(&[COMMON_TOLD, WAITING_TOLD, expected].concat())
    );
}

#[test]
fn ticks_go_by_the_price_itself() {
    let edges = [
        ("00000050", true),
        ("00000051", false),
        ("00000055", true),
        ("00001000", true),
        ("00001005", false),
        ("00001010", true),
    ];
    // Limit 1 at reference 50 is 2,000 percent, so prices up to 1,050 are within it.
    let day = "
        OL 00010 00000050 00000001 00000000 00000000
        QP 00000 00000040 00000500 00001050 00000500
    ";
    for (price, is_on_tick) in edges {
        let enter = format!("ES 00001 {price} 00000100 00000000 00000000");
        let refused = "NF0000500000001000000000000000000000000";
        let answer = last_answer(&[day, &enter].concat());
        assert_eq!(answer != refused, is_on_tick, "price {price}: {answer}");
    }
}

#[test]
fn limit_1_and_pieces_at_a_hundred_thousand() {
    let accepted = "AL0000000000002001000000000000000000000";
    let edges = [
        ("00200000 00000001", accepted),
        (
            "00200100 00000001",
            "NF0000600000001000000000000000000000000",
        ),
        ("00150100 00000001", accepted),
        ("00100000 00500000", accepted),
        (
            "00100000 00500001",
            "NF0000700000002000000000000000000000000",
        ),
    ];
    for (figures, expected) in edges {
        let enter = format!("ES 00001 {figures} 00000000 00000000");
        assert_eq!(
            last_answer(&[COMMON, &enter].concat()),
            expected,
            "{figures}"
        );
    }
}

#[test]
fn limit_2_at_a_hundred_thousand() {
    let trade_at = |price: &str| {
        let day = format!(
            "
            OL 00010 00100000 00000001 00000000 00000000
            QP 00000 00099000 00000500 {price} 00000500
            EB 00001 {price} 00000100 00000000 00000000
            "
        );
        last_answer(&day)
    };
    assert_eq!(
        trade_at("00150000"),
        "AL0000100000002001000000000000000000000"
    );
    assert_eq!(
        trade_at("00150100"),
        "AH0000100000002001000000000000000000000"
    );
}

#[test]
fn a_short_last_piece_is_refused_before_the_day_is_closed() {
    let mut input = records(COMMON);
    input.extend_from_slice(b"X-");
    let expected = "
        NP 00018 00000000 00000000 00000000 00000000
        Z1 00000 00000000 00000000 00000000 00000000
        Z2 00000 00000000 00000000 00000000 00000000
    ";
    assert_eq!(key_of(&input), records(&[COMMON_TOLD, expected].concat()));
}
