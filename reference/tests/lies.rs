//! Right outputs with a lie in them, each of which the law checker must find.

mod common;

use common::records;
use reference::engine::key_of;
use reference::laws::{check, Law};

/// The law that an output breaks.
fn broken_law(input: &[u8], output: &[u8]) -> Option<Law> {
    check(input, output, &mut |_| {})
        .err()
        .map(|broken| broken.law)
}

/// Replaces a record of a right output by others, and tells the law that is broken then.
fn law_after(input: &str, old: &str, new: &str) -> Option<Law> {
    let input = records(input);
    let right = String::from_utf8(key_of(&input)).unwrap();
    assert_eq!(broken_law(&input, right.as_bytes()), None);
    let old = String::from_utf8(records(old)).unwrap();
    let new = String::from_utf8(records(new)).unwrap();
    assert_eq!(right.matches(&old).count(), 1, "{old} in\n{right}");
    broken_law(&input, right.replace(&old, &new).as_bytes())
}

/// Two sells inside a flagged quote, a buy that takes both and opens an RFE, and orders that wait.
const ASKING: &str = "
    OL 00010 00100000 00000002 00000000 00000000
    QF 00000 00099000 00000500 00101000 00000500
    ES 00007 00100000 00000100 00000000 00000000
    ES 00007 00100000 00000200 00000000 00000000
    EB 00008 00102000 00000900 00000000 00000000
    Es 00009 00099500 00000300 00000000 00000000
    ES 00009 00103000 00000050 00000000 00000000
";

const MISSED: &str = "T- 00010 00000000 00000000 00000000 00000000";
const VALIDATED: &str = "VF 00000 00099000 00000500 00101000 00000500";
const BIGGER_FIRST: &str = "T- 00000 00100000 00000200 00000004 00000003";
const SMALLER_NEXT: &str = "T- 00000 00100000 00000100 00000004 00000002";

fn missed() -> String {
    [ASKING, MISSED].concat()
}

fn validated() -> String {
    [ASKING, VALIDATED].concat()
}

#[test]
fn ledger() {
    let one_piece_lost = "T- 00000 00100000 00000199 00000004 00000003";
    assert_eq!(
        law_after(ASKING, BIGGER_FIRST, one_piece_lost),
        Some(Law::Ledger)
    );
    let cancel = "C- 00007 00000002 00000000 00000000 00000000";
    let lit = &ASKING[..ASKING.find("EB").unwrap()];
    let out = "G- 00001 00000002 00000100 00000000 00000000";
    let one_piece_kept = "G- 00001 00000002 00000099 00000000 00000000";
    let day = [lit.trim_end(), "\n", cancel].concat();
    assert_eq!(law_after(&day, out, one_piece_kept), Some(Law::Ledger));
}

#[test]
fn numbers() {
    let right = "AL 00000 00000003 00100000 00000000 00000000";
    let given_twice = "AL 00000 00000002 00100000 00000000 00000000";
    assert_eq!(law_after(ASKING, right, given_twice), Some(Law::Numbers));
    // The ask is used up, and what the buy has left is priced above it.
    let validated_number = "AD 00002 00000001 00100000 00000000 00000000";
    let new_number = "AD 00002 00000007 00100000 00000000 00000000";
    assert_eq!(
        law_after(&validated(), validated_number, new_number),
        Some(Law::Numbers)
    );
}

#[test]
fn rank() {
    let swapped = [SMALLER_NEXT, "\n", BIGGER_FIRST].concat();
    let both = [BIGGER_FIRST, "\n", SMALLER_NEXT].concat();
    assert_eq!(law_after(ASKING, &both, &swapped), Some(Law::Rank));
    let with_quote = "T- 00000 00101000 00000500 00000004 00000000";
    let with_waiting = "T- 00000 00099500 00000300 00000004 00000005";
    assert_eq!(
        law_after(&validated(), with_quote, with_waiting),
        Some(Law::Rank)
    );
}

#[test]
fn prices() {
    let outside = "T- 00000 00102000 00000500 00000004 00000000";
    let right = "T- 00000 00101000 00000500 00000004 00000000";
    assert_eq!(law_after(&validated(), right, outside), Some(Law::Prices));
    let below_the_seller = "T- 00000 00099900 00000200 00000004 00000003";
    assert_eq!(
        law_after(ASKING, BIGGER_FIRST, below_the_seller),
        Some(Law::Prices)
    );
}

#[test]
fn causes() {
    // The buy's price lies above the governing ask, so the sell goes out.
    let right = "G- 00002 00000005 00000300 00000000 00000000";
    let lower_ticket = "G- 00002 00000004 00000600 00000000 00000000";
    assert_eq!(law_after(&missed(), right, lower_ticket), Some(Law::Causes));
    let beyond_limit_2 = "G- 00004 00000005 00000300 00000000 00000000";
    assert_eq!(
        law_after(&missed(), right, beyond_limit_2),
        Some(Law::Causes)
    );
    let cancelled = "G- 00001 00000005 00000300 00000000 00000000";
    assert_eq!(law_after(&missed(), right, cancelled), Some(Law::Causes));
}

const TWO_WAIT: &str = "
    OL 00010 00100000 00000001 00000000 00000000
    QF 00000 00099000 00000500 00101000 00000500
    EB 00008 00101000 00000100 00000000 00000000
    Eb 00008 00100000 00000200 00000000 00000000
    Eb 00008 00100000 00000300 00000000 00000000
    W- 00000 00000000 00000000 00000000 00000000
";

#[test]
fn tail() {
    let first = "G- 00003 00000003 00000200 00000000 00000000";
    let second = "G- 00003 00000004 00000300 00000000 00000000";
    let both = [first, "\n", second].concat();
    let swapped = [second, "\n", first].concat();
    assert_eq!(law_after(TWO_WAIT, &both, &swapped), Some(Law::Tail));
    let answer = "AD 00002 00000000 00100000 00000000 00000000";
    let right = [second, "\n", answer].concat();
    let one_stays = "AD 00001 00000000 00100000 00000000 00000000";
    assert_eq!(law_after(TWO_WAIT, &right, one_stays), Some(Law::Tail));
    let plain = "G- 00003 00000002 00000100 00000000 00000000";
    assert_eq!(law_after(TWO_WAIT, first, plain), Some(Law::Tail));
}

#[test]
fn quiet() {
    let inside = "
        OL 00010 00100000 00000001 00000000 00000000
        QF 00000 00099000 00000500 00101000 00000500
        EB 00001 00100000 00000100 00000000 00000000
        ES 00001 00100000 00000100 00000000 00000000
    ";
    let right = "
        T- 00000 00100000 00000100 00000002 00000003
        AL 00001 00000003 00100000 00000000 00000000
    ";
    let nothing_trades = "AL 00000 00000003 00100000 00000000 00000000";
    assert_eq!(law_after(inside, right, nothing_trades), Some(Law::Quiet));
}

#[test]
fn phases() {
    let right = "AR 00002 00000004 00100000 00000004 00000000";
    let not_asked = "
        T- 00000 00101000 00000500 00000004 00000000
        AD 00003 00000004 00100000 00000000 00000000
    ";
    assert_eq!(law_after(ASKING, right, not_asked), Some(Law::Phases));
    let other_opener = "AR 00002 00000004 00100000 00000003 00000000";
    assert_eq!(law_after(ASKING, right, other_opener), Some(Law::Phases));
    let halted_for_nothing = "AH 00002 00000004 00100000 00000000 00000000";
    assert_eq!(
        law_after(ASKING, right, halted_for_nothing),
        Some(Law::Phases)
    );
}

const HALTED: &str = "
    OL 00010 00100000 00000001 00000000 00000000
    QP 00000 00099000 00000500 00150100 00000500
    EB 00001 00150100 00000100 00000000 00000000
    T- 00119 00000000 00000000 00000000 00000000
    T- 00120 00000000 00000000 00000000 00000000
";

#[test]
fn seconds() {
    let still = "AH 00000 00000000 00100000 00000000 00000000";
    let over = "AD 00000 00000000 00100000 00000000 00000000";
    let right = [still, "\n", over].concat();
    let too_early = [over, "\n", over].concat();
    let too_late = [still, "\n", still].concat();
    assert_eq!(law_after(HALTED, &right, &too_early), Some(Law::Phases));
    assert_eq!(law_after(HALTED, &right, &too_late), Some(Law::Phases));
    let due = "
        G- 00002 00000005 00000300 00000000 00000000
        AD 00001 00000000 00100000 00000000 00000000
    ";
    let goes_on = "AR 00000 00000000 00100000 00000004 00000000";
    assert!(law_after(&missed(), due, goes_on).is_some());
}

#[test]
fn halts_need_a_price_beyond_limit_2() {
    let right = "
        G- 00004 00000002 00000100 00000000 00000000
        AH 00001 00000002 00100000 00000000 00000000
    ";
    let traded = "
        T- 00000 00150100 00000100 00000002 00000000
        AL 00001 00000002 00100000 00000000 00000000
    ";
    assert_eq!(law_after(HALTED, right, traded), Some(Law::Prices));
    let without_a_slip = "AH 00000 00000002 00100000 00000000 00000000";
    assert_eq!(law_after(HALTED, right, without_a_slip), Some(Law::Phases));
}

#[test]
fn answers() {
    let right = "AR 00002 00000004 00100000 00000004 00000000";
    let miscounted = "AR 00001 00000004 00100000 00000004 00000000";
    assert_eq!(law_after(ASKING, right, miscounted), Some(Law::Answers));
    let moved = "AR 00002 00000004 00100500 00000004 00000000";
    assert_eq!(law_after(ASKING, right, moved), Some(Law::Answers));
}

#[test]
fn refusals() {
    let off_tick = [ASKING, "EB 00001 00100001 00000100 00000000 00000000"].concat();
    let right = "NF 00005 00000001 00000000 00000000 00000000";
    let wrong_field = "NF 00005 00000003 00000000 00000000 00000000";
    assert_eq!(
        law_after(&off_tick, right, wrong_field),
        Some(Law::Refusals)
    );
    let accepted = "AR 00000 00000007 00100000 00000004 00000000";
    assert_eq!(law_after(&off_tick, right, accepted), Some(Law::Refusals));
    let waiting = "AR 00000 00000006 00100000 00000004 00000000";
    let refused = "NB 00008 00000000 00000000 00000000 00000000";
    assert_eq!(law_after(ASKING, waiting, refused), Some(Law::Refusals));
}

#[test]
fn report() {
    let right = "Z1 00002 00000000 00001550 00000000 00000600";
    let counted_once = "Z1 00002 00000000 00001550 00000000 00000300";
    assert_eq!(law_after(&missed(), right, counted_once), Some(Law::Report));
    let orders = "Z1 00001 00000000 00001550 00000000 00000600";
    assert_eq!(law_after(&missed(), right, orders), Some(Law::Report));
}

#[test]
fn form() {
    let input = records(ASKING);
    let right = key_of(&input);
    let shortened = &right[..right.len() - 40];
    assert_eq!(broken_law(&input, shortened), Some(Law::Form));
    let mut lengthened = right.clone();
    lengthened.extend_from_slice(&right[..40]);
    assert_eq!(broken_law(&input, &lengthened), Some(Law::Form));
    let mut with_unused_digit = right.clone();
    with_unused_digit[38] = b'1';
    assert_eq!(broken_law(&input, &with_unused_digit), Some(Law::Form));
}
