//! The untyped machine: each of the eight faults, reached by an ill-typed script that loading refuses with 8.

mod common;
use second::calls::Engine;
use second::check::check;
use second::eval::{Fault, Store};
use second::machine::{Machine, State, World};
use second::rank::{self, Lent, BUILT_IN};
use second::reader::read_script;
use second::rules::Env;
use second::schema::Schema;
use second::scope;
use second::search::Naive;
use second::term::Term;
use second::terms::{read_listed, Terms};
use second::types::{Datatype, Type};
use second::write::*;

const URI: u8 = 1;
const INTEGER: u8 = 5;
/// Terms: 0 is 3, 1 is u:a, 2 is "s", 3 is 10^12, then p:speed 4, p:addr 5, p:name 6.
const THREE: usize = 0;
const A: usize = 1;
const S: usize = 2;
const BIG: usize = 3;
const SPEED: usize = 4;
const NAME: usize = 6;

const LENT: Lent = Lent { ranks: &BUILT_IN, alphabet: rank::PLAIN };

fn listed() -> Vec<Term> {
    vec![Term::Int(3), uri("u:a"), string("s"), Term::Int(1_000_000_000_000)]
}

/// Runs an ill-typed script with its written types on the untyped machine.
fn run(script: Bytes) -> Result<(u64, State), Fault> {
    let (terms, schema) = (terms(&listed()), common::stock());
    let refusal = check(Engine::fast().typer, &terms, &schema, &script).err().map(|r| r.number);
    let schema = Schema::read(&schema).unwrap();
    let terms = Terms::number(&read_listed(&terms).unwrap(), &schema);
    let script = read_script(&script, terms.len()).unwrap();
    assert!(scope::check(&script).is_ok());
    let types: Env = script.written().map(Option::flatten);
    let store = Store { terms: &terms, quads: &[], now: 0, lent: LENT };
    let world = World { script: &script, types: &types, store, search: &Naive };
    let outcome = Machine::fresh().run(&world, 100);
    if outcome.is_err() {
        assert_eq!(refusal, Some(8));
    }
    outcome
}

fn where_(query: Bytes) -> Result<(u64, State), Fault> {
    run(once(&[(0, URI), (1, INTEGER)], query, success()))
}

#[test]
fn the_eight() {
    let (x, n) = (var(0), var(1));
    assert_eq!(where_(pattern(n.clone(), x.clone(), con(SPEED), n.clone())), Err(Fault::Graph));
    assert_eq!(where_(pattern(x.clone(), n.clone(), con(SPEED), n.clone())), Err(Fault::Subject));
    assert_eq!(where_(pattern(x.clone(), x.clone(), con(A), n.clone())), Err(Fault::Property));
    assert_eq!(where_(pattern(x.clone(), x.clone(), con(NAME), n.clone())), Err(Fault::Object));
    assert_eq!(run(from_named(con(THREE), success())), Err(Fault::FromNamed));
    assert_eq!(where_(filter(regex("", n.clone()))), Err(Fault::NoString));
    assert_eq!(where_(filter(lang_matches("*", x.clone()))), Err(Fault::NoString));
    assert_eq!(where_(filter(equal(plus(x.clone(), n.clone()), n.clone()))), Err(Fault::NoNumber));
    assert_eq!(where_(filter(equal(abs(x.clone()), n.clone()))), Err(Fault::NoNumber));
    assert_eq!(where_(filter(less(n, x))), Err(Fault::Comparison));
}

/// An anyURI variable in the place of a property: the first candidate that is no schema URI is a fault.
#[test]
fn any_uri_as_property() {
    let query = pattern(con(A), con(A), var(0), con(THREE));
    assert_eq!(run(once(&[(0, URI)], query, success())), Err(Fault::Property));
}

/// All parts are evaluated: a fault shows behind what already decides.
#[test]
fn all_parts_are_evaluated() {
    let fault = || filter(regex("", con(THREE)));
    let (no, yes) = (|| vec![0x50], || vec![0x51]);
    assert_eq!(where_(both(filter(no()), fault())), Err(Fault::NoString));
    assert_eq!(where_(union(filter(yes()), fault())), Err(Fault::NoString));
    assert_eq!(where_(filter(node(0x52, &[yes(), regex("", con(THREE))]))), Err(Fault::NoString));
    assert_eq!(where_(filter(node(0x53, &[no(), regex("", con(THREE))]))), Err(Fault::NoString));
    // The first fault in script order, operands before their operator; in a pattern from the graph on.
    let two = node(0x53, &[equal(con(A), con(THREE)), regex("", con(THREE))]);
    assert_eq!(where_(filter(two)), Err(Fault::Comparison));
    assert_eq!(where_(filter(equal(abs(con(A)), con(A)))), Err(Fault::NoNumber));
    assert_eq!(where_(pattern(con(0), con(0), con(0), con(0))), Err(Fault::Graph));
    assert_eq!(where_(pattern(con(A), con(0), con(0), con(0))), Err(Fault::Subject));
    assert_eq!(where_(pattern(con(A), con(A), con(0), con(S))), Err(Fault::Property));
}

/// Faults go by kind and come first: no value of the wrong kind is a fault, and unknown hides none.
#[test]
fn faults_come_before_unknown() {
    let over = || plus(con(BIG), con(BIG));
    let unknown = || less(over(), con(THREE));
    assert_eq!(where_(filter(unknown())), Ok((0, State::Waiting)));
    assert_eq!(where_(filter(regex("", over()))), Err(Fault::NoString));
    assert_eq!(where_(filter(lang_matches("*", over()))), Err(Fault::NoString));
    assert_eq!(where_(filter(equal(abs(str(over())), over()))), Err(Fault::NoNumber));
    assert_eq!(where_(filter(equal(over(), str(over())))), Err(Fault::Comparison));
    assert_eq!(where_(filter(less(over(), con(A)))), Err(Fault::Comparison));
    for kind in [0x52, 0x53] {
        let parts = [unknown(), regex("", con(THREE))];
        assert_eq!(where_(filter(node(kind, &parts))), Err(Fault::NoString));
        let [first, second] = parts;
        assert_eq!(where_(filter(node(kind, &[second, not(first)]))), Err(Fault::NoString));
    }
}

/// Only tuples whose terms have the variables' types are tried, so no candidate means no fault; and a step taken before.
#[test]
fn only_what_is_tried() {
    let none = once(&[(0, Type::Data(Datatype::DateTime).code())], filter(regex("", var(0))), success());
    assert_eq!(run(none), Ok((0, State::Waiting)));
    let after = sequence(success(), from_named(con(THREE), success()));
    assert_eq!(run(after), Err(Fault::FromNamed));
}
