//! The total of a script, and its refusals.

mod common;
use common::{stock, ENGINES};
use second::limits::TOTAL_REPORT;
use second::term::Term;
use second::write::*;

/// The total of both engines, which must agree; a refusal must leave the report.
fn total(terms: &[u8], script: &[u8]) -> Result<u32, u32> {
    let outcomes = ENGINES.map(|engine| {
        let mut report = [0xaa; TOTAL_REPORT];
        let outcome = engine.total([terms, &stock(), script], &mut report).map_err(|refusal| refusal.number);
        assert!(outcome.is_ok() || report == [0xaa; TOTAL_REPORT]);
        outcome.map(|()| u32::from_le_bytes(report))
    });
    assert_eq!(outcomes[0], outcomes[1]);
    outcomes[0]
}

#[test]
fn one_for_each_record_of_kinds_71_to_74() {
    let terms = terms(&[uri("u:a")]);
    let asks = |block: Vec<u8>| from_named(con(0), sequence(block, success()));
    assert_eq!(total(&terms, &success()), Ok(1));
    assert_eq!(total(&terms, &asks(once(&[], empty(), success()))), Ok(5));
    // Records of the query and of names don't count.
    let query = both(pattern(con(0), var(0), con(1), var(1)), filter(equal(var(0), var(0))));
    assert_eq!(total(&terms, &asks(once(&[(0, 0), (1, 0)], query, success()))), Ok(5));
}

#[test]
fn none_where_an_each_block_stands_anywhere() {
    let terms = terms(&[uri("u:a")]);
    let each = || each(&[], empty(), success());
    for script in [each(), from_named(con(0), each()), once(&[], empty(), each()), sequence(success(), each())] {
        assert_eq!(total(&terms, &script), Ok(0));
    }
}

#[test]
fn refusals() {
    let good = terms(&[Term::Int(3)]);
    assert_eq!(ENGINES[0].total([&good, &[], &[]], &mut [0; TOTAL_REPORT + 1]).map_err(|r| r.number), Err(1));
    assert_eq!(total(&[0x16], &[]), Err(2));
    assert_eq!(total(&good.repeat(2), &[]), Err(3));
    assert_eq!(total(&good, &[]), Err(6));
    assert_eq!(total(&good, &from_named(var(0), success())), Err(7));
    // Types are not asked: no typing, and several.
    assert_eq!(total(&good, &once(&[], filter(regex("a", con(0))), success())), Ok(2));
    assert_eq!(total(&good, &once(&[(0, 0)], empty(), success())), Ok(2));
}
