//! One written type that would do: document 02's example, the roster's rows, and what follows from document 01's rules for more of them.

mod common;
use common::{stock, types, ENGINES};
use second::limits::SUGGEST_REPORT;
use second::term::Term;
use second::types::{Datatype, Type};
use second::write::*;

/// Constants: 0 is 3; then p:speed, p:addr, p:name.
const THREE: usize = 0;
const SPEED: usize = 1;
const NAME: usize = 3;
/// $g 0, $s 1, the others from 2 on.
const G: u8 = 0;
const S: u8 = 1;

const ACCEPTED: Result<[u8; 4], u32> = Ok([0, 0, 0, 0]);
const NONE: Result<[u8; 4], u32> = Ok([2, 0, 0, 0]);

fn written(variable: u8, code: u8) -> Result<[u8; 4], u32> {
    Ok([1, variable, code, 0])
}

/// The report of both engines, which must agree; a refusal must leave it.
fn suggest(card: [&[u8]; 3]) -> Result<[u8; 4], u32> {
    let outcomes = ENGINES.map(|engine| {
        let mut report = [0xaa; SUGGEST_REPORT];
        let outcome = engine.suggest(card, &mut report).map_err(|refusal| refusal.number);
        assert!(outcome.is_ok() || report == [0xaa; SUGGEST_REPORT]);
        outcome.map(|()| report)
    });
    assert_eq!(outcomes[0], outcomes[1]);
    outcomes[0]
}

/// What is said of a script over the roster's schema.
fn of(script: Bytes) -> Result<[u8; 4], u32> {
    suggest([&terms(&[Term::Int(3)]), &stock(), &script])
}

/// Blocks that bind these pairs, four each, the last of them with the query.
fn blocks(pairs: &[(u8, u8)], query: Bytes) -> Bytes {
    let mut chunks = pairs.chunks(4).rev();
    let innermost = once(chunks.next().unwrap_or(&[]), query, success());
    chunks.fold(innermost, |script, pairs| once(pairs, empty(), script))
}

/// What is said of a query over open $g, $s and so many variables from 2 on, open too.
fn open(variables: u8, query: Bytes) -> Result<[u8; 4], u32> {
    let pairs: Vec<(u8, u8)> = (0..2 + variables).map(|v| (v, 0)).collect();
    of(blocks(&pairs, query))
}

fn over(property: Bytes, object: u8) -> Bytes {
    pattern(var(G), var(S), property, var(object))
}

/// `$p $o` for each pair, and each of these objects a decimal by p:speed.
fn numbers(pairs: &[(u8, u8)], objects: &[u8]) -> Bytes {
    let patterns = pairs.iter().map(|(p, o)| over(var(*p), *o));
    let speeds = objects.iter().map(|o| over(con(SPEED), *o));
    patterns.chain(speeds).reduce(both).expect("a pattern")
}

/// Document 02's example, and what it comes to once the type is written.
#[test]
fn the_example() {
    assert_eq!(open(2, numbers(&[(2, 3)], &[3])), written(2, 11));
    let pairs = [(G, 0), (S, 0), (2, 11), (3, 0)];
    let any = Type::Data(Datatype::AnyUri);
    let (range, decimal) = (Type::Range(Datatype::Decimal), Type::Data(Datatype::Decimal));
    let typed = types(&[Term::Int(3)], &stock(), once(&pairs, numbers(&[(2, 3)], &[3]), success()));
    assert_eq!(typed, Ok(vec![(G, any), (S, any), (2, range), (3, decimal)]));
}

/// The rows of the roster with 9: graph and subject are decided, so that no type written at them helps.
#[test]
fn rows_with_9() {
    // A property has no datatype, so 1 to 5 give 8; with range(anyURI) the object is anyURI.
    assert_eq!(open(2, over(var(2), 3)), written(2, 9));
    // The object has the lower number: as anyURI it asks for range(anyURI).
    assert_eq!(open(2, over(var(3), 2)), written(2, 1));
    // As anyURI or a string it would be no speed; as a decimal it asks for range(decimal).
    assert_eq!(open(2, numbers(&[(3, 2)], &[2])), written(2, 3));
    // Both sides of an equation have one datatype.
    assert_eq!(of(once(&[(0, 0), (1, 0)], filter(equal(var(0), var(1))), success())), written(0, 1));
    assert_eq!(of(once(&[(8, 0)], empty(), success())), written(8, 1));
}

#[test]
fn other_rows_of_the_roster() {
    let speed = over(con(SPEED), 2);
    assert_eq!(open(1, speed.clone()), ACCEPTED);
    assert_eq!(open(1, both(speed, over(con(NAME), 2))), Err(8));
    assert_eq!(open(2, both(over(var(2), 3), over(con(NAME), 3))), ACCEPTED);
    assert_eq!(open(1, over(var(2), 2)), ACCEPTED);
    assert_eq!(open(1, pattern(var(G), var(S), var(2), con(THREE))), ACCEPTED);
}

/// A property of 3 is range(integer) or range(decimal), and the greater of these, the first, does not go with a decimal object.
#[test]
fn a_property_of_3_and_of_another() {
    let of_three = |p| pattern(var(G), var(S), var(p), con(THREE));
    assert_eq!(open(2, both(of_three(2), over(var(2), 3))), written(2, 11));
    assert_eq!(open(2, both(of_three(3), over(var(3), 2))), written(2, 3));
}

/// Two properties of one number: with range(decimal) at one the other stays undecided, with range(integer) the number is an integer.
#[test]
fn a_code_that_does_not_help_before_one_that_does() {
    assert_eq!(open(3, numbers(&[(2, 4), (3, 4)], &[4])), written(2, 13));
    // The number has the lowest variable: as a decimal it asks both for range(decimal).
    assert_eq!(open(3, numbers(&[(3, 2), (4, 2)], &[2])), written(2, 3));
    // One property of two numbers: range(decimal) leaves both free.
    assert_eq!(open(3, numbers(&[(2, 3), (2, 4)], &[3, 4])), written(2, 11));
}

/// $p of $o, $q of $o, $q of $u: whatever is written at $p, $q and $u stay undecided; a decimal $o asks both properties for
/// range(decimal).
#[test]
fn a_variable_for_which_there_is_none_before_one_for_which_there_is() {
    let [p, o, q, u] = [2, 3, 4, 5];
    assert_eq!(open(4, numbers(&[(p, o), (q, o), (q, u)], &[o, u])), written(o, 3));
    // As a decimal, $u decides $q and no more: the property between both objects helps, by range(integer).
    let [u, q, o, p] = [2, 3, 4, 5];
    assert_eq!(open(4, numbers(&[(p, o), (q, o), (q, u)], &[o, u])), written(q, 13));
}

#[test]
fn none_would_do() {
    assert_eq!(of(once(&[(0, 0), (1, 0)], empty(), success())), NONE);
    let apart = sequence(once(&[(4, 0)], empty(), success()), once(&[(1, 0)], empty(), success()));
    assert_eq!(of(apart), NONE);
    // Hanging together, and still too much for one: three properties along three numbers.
    let long = [(2, 3), (4, 3), (4, 5), (6, 5), (6, 7)];
    assert_eq!(open(6, numbers(&long, &[3, 5, 7])), NONE);
    // An equation of other variables.
    let query = both(over(var(2), 3), filter(equal(var(4), var(5))));
    assert_eq!(open(4, query), NONE);
}

/// Neither a variable that has its written type nor one that no pair binds is named, and the order is that of the numbers.
#[test]
fn which_variable_is_the_lowest_open_one() {
    assert_eq!(of(once(&[(5, 1), (9, 0)], empty(), success())), written(9, 1));
    assert_eq!(of(once(&[(9, 0), (5, 13)], empty(), success())), written(9, 1));
    let equation = || filter(equal(var(7), var(3)));
    assert_eq!(of(once(&[(7, 0), (3, 0)], equation(), success())), written(3, 1));
    assert_eq!(of(once(&[(7, 0), (3, 4)], equation(), success())), ACCEPTED);
    // The outer block binds the higher number.
    let inner = each(&[(4, 0)], filter(equal(var(15), var(4))), success());
    assert_eq!(of(each(&[(15, 0)], empty(), inner)), written(4, 1));
    let last = sequence(once(&[(0, 2)], empty(), success()), once(&[(15, 0)], empty(), success()));
    assert_eq!(of(last), written(15, 1));
}

/// 1 comes first; 2 to 8 come as a load's.
#[test]
fn refusals() {
    let good = terms(&[Term::Int(3)]);
    let twice = schema(&[("p:name", Datatype::String), ("p:name", Datatype::String)]);
    let undecided = once(&[(0, 0)], empty(), success());
    for length in [0, 3, 5] {
        for (engine, card) in ENGINES.iter().zip([[&[0x16][..], &[], &[]], [&good, &[], &undecided]]) {
            let mut report = vec![0xaa; length];
            assert_eq!(engine.suggest(card, &mut report).map_err(|r| r.number), Err(1));
            assert_eq!(report, vec![0xaa; length]);
        }
    }
    assert_eq!(suggest([&[0x16], &twice, &[]]), Err(2));
    assert_eq!(suggest([&good.repeat(2), &twice, &[]]), Err(3));
    assert_eq!(suggest([&good, &[0x21], &[]]), Err(4));
    assert_eq!(suggest([&good, &twice, &[]]), Err(5));
    assert_eq!(suggest([&good, &[], &[]]), Err(6));
    assert_eq!(suggest([&good, &[], &from_named(var(0), success())]), Err(7));
    // No typing, also where a variable is open beside.
    assert_eq!(suggest([&good, &[], &once(&[(0, 0)], filter(regex("a", con(0))), success())]), Err(8));
    assert_eq!(suggest([&good, &[], &undecided]), written(0, 1));
    assert_eq!(suggest([&[], &[], &success()]), ACCEPTED);
}
