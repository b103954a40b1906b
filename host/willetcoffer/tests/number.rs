//! Numbers as makers print them, through the safe interface: each refusal with a text that meets it, lengths, and what is read from end
//! to end.

use willetcoffer::limits::{DECIMAL_LIMIT, INTEGER_LIMIT, NUMBER_RECORD_WIDTH, NUMBER_TEXT_LIMIT};
use willetcoffer::page::triple;
use willetcoffer::raw;
use willetcoffer::script::*;
use willetcoffer::{number, Card, Datatype, Refusal, State, Tables, Term};

fn integer(number: i64) -> Result<Term, Refusal> {
    Ok(Term::integer(number).unwrap())
}

fn decimal(millionths: i64) -> Result<Term, Refusal> {
    Ok(Term::decimal(millionths).unwrap())
}

const TEXT: Result<Term, Refusal> = Err(Refusal::NumberText);
const VALUE: Result<Term, Refusal> = Err(Refusal::NumberValue);

/// Document 02's examples, those of the settled readings, and both limits of both kinds with one past each.
#[test]
fn rows() {
    let rows = [
        ("0.999e2", decimal(99_900_000)),
        ("-3", integer(-3)),
        ("1e-7", VALUE),
        ("-0", integer(0)),
        ("-0.0", decimal(0)),
        ("0e99", decimal(0)),
        ("100000000000000000000e-20", decimal(1_000_000)),
        ("+007", integer(7)),
        ("3E0", decimal(3_000_000)),
        ("12.50e+01", decimal(125_000_000)),
        ("1000000000000", integer(INTEGER_LIMIT)),
        ("-1000000000000", integer(-INTEGER_LIMIT)),
        ("1000000000001", VALUE),
        ("-1000000000001", VALUE),
        ("1e12", decimal(DECIMAL_LIMIT)),
        ("-1000000000000.000000", decimal(-DECIMAL_LIMIT)),
        ("1000000000000.000001", VALUE),
        ("-1000000000000000001e-6", VALUE),
        ("9e99", VALUE),
    ];
    for (text, expected) in rows {
        assert_eq!(number(text), expected, "{text}");
    }
    for text in ["", " ", ".5", "5.", "1e", "1e123", "+", "1 ", "--1", "1.2.3", "1e1.5", "0x10", "NaN", "1,5", "٣"] {
        assert_eq!(number(text), TEXT, "{text:?}");
    }
    assert_eq!((number(b"3\xff"), number([b'3', 0]), number([0x80])), (TEXT, TEXT, TEXT));
}

/// The longest text, and one byte more; a value that is none is told after a text that is none.
#[test]
fn lengths_of_the_text() {
    for (text, expected) in [
        ("0".repeat(NUMBER_TEXT_LIMIT), integer(0)),
        ("9".repeat(NUMBER_TEXT_LIMIT), VALUE),
        (format!("0.5{}", "0".repeat(NUMBER_TEXT_LIMIT - 3)), decimal(500_000)),
        (format!("1{}e-35", "0".repeat(NUMBER_TEXT_LIMIT - 5)), decimal(1_000_000)),
    ] {
        assert_eq!((text.len(), number(&text)), (NUMBER_TEXT_LIMIT, expected), "{text}");
        assert_eq!(number(format!("0{text}")), TEXT, "0{text}");
    }
    assert_eq!(number("0".repeat(10_000)), TEXT);
}

/// A record of another length meets 1, before 16 and 17; on each refusal it keeps its bytes.
#[test]
fn refusals_of_the_call() {
    for width in [0, 1, NUMBER_RECORD_WIDTH - 1, NUMBER_RECORD_WIDTH + 1, 49] {
        for text in ["3", "x", "", "1e99"] {
            let mut record = vec![9; width];
            assert_eq!((raw::number(text.as_bytes(), &mut record), record), (1, vec![9; width]), "{text}");
        }
    }
    for (text, refusal) in [("x", 16), ("", 16), ("1e99x", 16), ("1e99", 17), ("1e-7", 17)] {
        let mut record = [9; NUMBER_RECORD_WIDTH];
        assert_eq!((raw::number(text.as_bytes(), &mut record), record), (refusal, [9; NUMBER_RECORD_WIDTH]), "{text}");
    }
    let mut record = [9; NUMBER_RECORD_WIDTH];
    assert_eq!(raw::number(b"-3", &mut record), 0);
    assert_eq!(record, [0x13, 0xfd, 0xff, 0xff, 0xff, 0xff, 0xff, 0xff, 0xff]);
}

/// Whether the engine's str gives this text for a term.
fn is_str(term: Term, text: &str) -> bool {
    let same = filter(equal(str(con(0)), con(1)));
    let card = Card::new(&[term, Term::string(text).unwrap()], &[], once(&[], same, success()));
    let mut tables = Tables::new();
    let mut saved = card.load(&mut tables).unwrap();
    card.run(&tables, &mut saved, 9, 0).unwrap().state == State::Ended
}

/// The text that the engine's own str gives for a number reads as that number.
#[test]
fn what_str_gives() {
    let rows = [
        ("-0", "0"),
        ("+0012", "12"),
        ("-1000000000000", "-1000000000000"),
        ("-0e5", "0.0"),
        ("3e0", "3.0"),
        ("-5e-1", "-0.5"),
        ("1000000000000000000e-6", "1000000000000.0"),
        ("-999999999999.9999990", "-999999999999.999999"),
        ("0.999e2", "99.9"),
        ("1e-6", "0.000001"),
    ];
    for (text, str) in rows {
        let term = number(text).unwrap();
        assert!(is_str(term, str) && !is_str(term, &format!("{str}0")), "{text}");
        assert_eq!(number(str), Ok(term), "{text}");
    }
}

/// A maker's text becomes an object: a number that is read stands on a page, and a block finds it by its amount.
#[test]
fn on_a_page() {
    let [yard, speed] = ["u:yard", "p:speed"].map(|text| Term::uri(text).unwrap());
    let fast = both(pattern([con(0), con(0), con(2), var(0)]), filter(less(con(1), var(0))));
    let script = from_named(con(0), once(&[(0, None)], fast, success()));
    let card = Card::new(&[yard, number("12e1").unwrap()], &[(speed, Datatype::Decimal)], script);
    for (text, state) in [("126.4", State::Ended), ("126", State::Ended), ("120.0", State::Waiting)] {
        let mut tables = Tables::new();
        let mut saved = card.load(&mut tables).unwrap();
        let page = triple(&yard, &speed, &number(text).unwrap()).unwrap();
        assert_eq!(card.page(&mut tables, &mut saved, 0u16, &page).map(|report| report.skipped), Ok(0));
        assert_eq!(card.run(&tables, &mut saved, 9, 0).map(|report| report.state), Ok(state), "{text}");
    }
}
