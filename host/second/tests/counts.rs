//! Outcome and count of a tuple, row by row, worked out by hand from the rule of document 02, Ask 4: 62 and 53 leave their second part out
//! after a false first, 63 and 52 after a true one, and nothing else is left out; each record of kinds 50 to 65 that is evaluated counts one.

use second::eval::{Evaluate, Store};
use second::rank::{self, Lent, BUILT_IN};
use second::reader::read_script;
use second::schema::Schema;
use second::script::Kind;
use second::term::Term;
use second::terms::Terms;
use second::types::Datatype;
use second::write::*;
use second::{count, early};

/// Terms: the graph, the largest integer, a string; then the property of the one stored quad, over decimals.
const G: usize = 0;
const LARGEST: usize = 1;
const NAME: usize = 2;
const SPEED: usize = 3;

const LENT: Lent = Lent { ranks: &BUILT_IN, alphabet: rank::PLAIN };

/// As defined, and fast.
const WAYS: [Evaluate; 2] = [count::evaluate, early::evaluate];

/// Whether the query holds with variable 0 bound to the largest integer, and its count.
fn evaluated(query: &Bytes) -> (bool, u32) {
    let schema = Schema::read(&schema(&[("p:speed", Datatype::Decimal)])).unwrap();
    let terms = Terms::number(&[uri("g:stock"), Term::Int(1_000_000_000_000), tagged("en", "a")], &schema);
    let script = read_script(&once(&[(0, 3)], query.clone(), success()), terms.len()).unwrap();
    let Kind::Block(block) = &script.nodes[0].kind else { panic!("a block is read") };
    let quads = [[G, G, SPEED, LARGEST].map(|number| number as u16)];
    let store = Store { terms: &terms, quads: &quads, now: 0, lent: LENT };
    let mut bindings = [None; 16];
    bindings[0] = Some(LARGEST as u16);
    let [defined, fast] = WAYS.map(|evaluate| evaluate(&store, &block.query, &bindings).unwrap());
    assert_eq!(defined, fast, "{query:02x?}");
    defined
}

fn rows(rows: &[(Bytes, bool, u32)]) {
    for (query, holds, count) in rows {
        assert_eq!(evaluated(query), (*holds, *count), "{query:02x?}");
    }
}

fn yes() -> Bytes {
    vec![0x51]
}

fn no() -> Bytes {
    vec![0x50]
}

/// A comparison of a sum past its limit.
fn unknown() -> Bytes {
    less(plus(var(0), var(0)), con(LARGEST))
}

fn or(a: Bytes, b: Bytes) -> Bytes {
    node(0x52, &[a, b])
}

fn and(a: Bytes, b: Bytes) -> Bytes {
    node(0x53, &[a, b])
}

/// A query of count 1 that holds, and one that does not.
fn stored() -> Bytes {
    pattern(con(G), con(G), con(SPEED), var(0))
}

fn missing() -> Bytes {
    pattern(con(G), con(SPEED), con(SPEED), var(0))
}

#[test]
fn records_without_parts_count_one() {
    rows(&[(empty(), true, 1), (stored(), true, 1), (missing(), false, 1)]);
    // The filter is one more.
    rows(&[(filter(yes()), true, 2), (filter(no()), false, 2), (filter(unknown()), false, 2)]);
}

#[test]
fn names_and_expressions_count_nothing() {
    let deep = || abs(minus(plus(con(LARGEST), var(0)), abs(abs(var(0)))));
    rows(&[
        (filter(regex("a", con(NAME))), true, 2),
        (filter(regex("b", str(str(str(con(NAME)))))), false, 2),
        (filter(regex("", str(deep()))), false, 2),
        (filter(lang_matches("en", con(NAME))), true, 2),
        (filter(lang_matches("*", str(var(0)))), false, 2),
        (filter(equal(var(0), abs(con(LARGEST)))), true, 2),
        (filter(equal(deep(), deep())), false, 2),
        (filter(less(now(), now())), false, 2),
        (filter(less(minus(var(0), con(LARGEST)), var(0))), true, 2),
    ]);
}

#[test]
fn a_not_counts_one_and_its_part() {
    rows(&[
        (filter(not(no())), true, 3),
        (filter(not(yes())), false, 3),
        (filter(not(unknown())), false, 3),
        (filter(not(not(not(no())))), true, 5),
        // Filter, not, and, false.
        (filter(not(and(no(), yes()))), true, 4),
        // Filter, not, or, two parts.
        (filter(not(or(no(), yes()))), false, 5),
    ]);
}

#[test]
fn an_or_leaves_its_second_part_out_after_true() {
    for (second, holds) in [(yes(), true), (no(), false), (unknown(), false)] {
        rows(&[
            (filter(or(yes(), second.clone())), true, 3),
            (filter(or(no(), second.clone())), holds, 4),
            (filter(or(unknown(), second)), holds, 4),
        ]);
    }
}

#[test]
fn an_and_leaves_its_second_part_out_after_false() {
    for (second, holds) in [(yes(), true), (no(), false), (unknown(), false)] {
        rows(&[
            (filter(and(no(), second.clone())), false, 3),
            (filter(and(yes(), second.clone())), holds, 4),
            (filter(and(unknown(), second)), false, 4),
        ]);
    }
}

#[test]
fn a_both_leaves_its_second_part_out_after_false() {
    rows(&[
        (both(missing(), stored()), false, 2),
        (both(missing(), missing()), false, 2),
        (both(stored(), stored()), true, 3),
        (both(stored(), missing()), false, 3),
        (both(empty(), filter(yes())), true, 4),
        (both(filter(yes()), empty()), true, 4),
        (both(filter(no()), empty()), false, 3),
        // A filter whose boolean is unknown does not hold, and so a both is decided by it.
        (both(filter(unknown()), empty()), false, 3),
    ]);
}

#[test]
fn a_union_leaves_its_second_part_out_after_true() {
    rows(&[
        (union(stored(), missing()), true, 2),
        (union(empty(), filter(and(yes(), yes()))), true, 2),
        (union(missing(), stored()), true, 3),
        (union(missing(), missing()), false, 3),
        (union(filter(yes()), stored()), true, 3),
        (union(filter(no()), stored()), true, 4),
        (union(filter(unknown()), stored()), true, 4),
    ]);
}

/// What is left out is left out with everything below it; what is not, is counted by the same rule.
#[test]
fn parts_of_parts() {
    let long = || and(or(yes(), no()), not(and(no(), or(yes(), yes()))));
    rows(&[
        // Filter, and, or, true; not, and, false.
        (filter(long()), true, 7),
        (filter(or(yes(), long())), true, 3),
        // The filter and the or, false, and the six of the long one.
        (filter(or(no(), long())), true, 3 + 6),
        // Each and is decided by what stands first in it: filter, three ands, false.
        (filter(and(and(and(no(), yes()), yes()), yes())), false, 5),
        // Filter, and, true, and, true, and, false.
        (filter(and(yes(), and(yes(), and(no(), yes())))), false, 7),
        // An or that is decided under an and that is not: filter, and, or, true, false.
        (filter(and(or(yes(), long()), no())), false, 5),
        // Unknown goes on and may be decided by what follows: filter, and, unknown, or, true.
        (filter(and(unknown(), or(yes(), no()))), false, 5),
        // A not turns what decides: filter, or, not, false.
        (filter(or(not(no()), long())), true, 4),
        (filter(and(not(yes()), long())), false, 4),
        // Both, union, pattern; filter and its boolean.
        (both(union(stored(), missing()), filter(no())), false, 5),
        // Both, union, two patterns; the filter is left out.
        (both(union(missing(), missing()), filter(long())), false, 4),
        // Union, both, pattern; its second part: both, pattern, empty.
        (union(both(missing(), filter(long())), both(stored(), empty())), true, 6),
        (union(both(stored(), empty()), both(missing(), filter(long()))), true, 4),
    ]);
}
