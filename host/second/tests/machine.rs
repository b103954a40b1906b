//! Runs and pages: steps, states, tables and the saved run, byte for byte.

mod common;
use common::{stock, Station};
use second::limits::SLOT;
use second::term::{fill, Term};
use second::write::*;

/// Terms: 0 g:stock, 1 is 60; then p:speed 2, p:addr 3, p:name 4.
const G: usize = 0;
const SIXTY: usize = 1;
const SPEED: usize = 2;
const NAME: usize = 4;
const ENDED: u8 = 0;
const WANTED: u8 = 1;
const WAITING: u8 = 2;
const SPENT: u8 = 3;

fn listed() -> Vec<u8> {
    terms(&[uri("g:stock"), Term::Int(60)])
}

fn station(script: Bytes) -> Station {
    Station::loaded(listed(), stock(), script)
}

fn speed(subject: &str, millionths: i64) -> Bytes {
    triple(&fill(subject.as_bytes()), &fill(b"p:speed"), &Term::Dec(millionths))
}

fn name(subject: &str, text: &str) -> Bytes {
    triple(&fill(subject.as_bytes()), &fill(b"p:name"), &string(text))
}

/// $s 0 in the stock with a speed $v 1 over 60, and its name $n 2.
fn fast_stock(each: bool, then: Bytes) -> Bytes {
    let speed = pattern(con(G), var(0), con(SPEED), var(1));
    let name = pattern(con(G), var(0), con(NAME), var(2));
    let query = both(both(speed, name), filter(less(con(SIXTY), var(1))));
    from_named(con(G), block(each, &[(0, 0), (1, 0), (2, 0)], query, then))
}

#[test]
fn a_load_leaves_the_root_alone() {
    let s = station(fast_stock(true, success()));
    assert_eq!(s.terms_in_use()[2..], [uri("p:speed"), uri("p:addr"), uri("p:name")]);
    assert!(s.term_table[5 * SLOT..].iter().all(|b| *b == 0) && s.quad_table.iter().all(|b| *b == 0));
    let mut saved = vec![0; 486];
    saved[0] = 1;
    saved[6..9].copy_from_slice(&[1, 3, 2]);
    assert_eq!(s.saved, saved);
}

#[test]
fn each_block_with_pages_in_between() {
    let mut s = station(fast_stock(true, success()));
    assert_eq!(s.run(10, 0), Ok((0, WANTED, G as u16)));
    // A record of the wrong type and one without a schema entry are skipped; a repeat is neither stored nor counted.
    let wrong = triple(&fill(b"l:x"), &fill(b"p:speed"), &string("fast"));
    let unknown = triple(&fill(b"l:y"), &fill(b"p:none"), &Term::Int(1));
    let loco = |n: &str, v: i64| [speed(&format!("l:{n}"), v), name(&format!("l:{n}"), n)].concat();
    let page = [loco("a", 70_000_000), wrong, loco("b", 50_000_000), unknown, speed("l:a", 70_000_000)].concat();
    assert_eq!(s.page(0, &page), Ok(2));
    // New terms in page order, subject before object.
    let [l_a, seventy, a] = [uri("l:a"), Term::Dec(70_000_000), string("a")];
    assert_eq!(s.terms_in_use()[5..], [l_a, seventy, a, uri("l:b"), Term::Dec(50_000_000), string("b")]);
    assert_eq!(s.quads(), vec![[0, 5, 2, 6], [0, 5, 4, 7], [0, 8, 2, 9], [0, 8, 4, 10]]);
    // From named, then the block's first answer.
    assert_eq!(s.run(2, 0), Ok((2, SPENT, 0)));
    assert_eq!([0, 1, 2].map(|v| s.bound(v)), [Some(5), Some(6), Some(7)]);
    assert_eq!(s.number(0), 2, "the block and its script");
    // The block begins after 72 and a constant (4 bytes), its script after its head (11), two 62s, two patterns of 11
    // and a filter of 7 bytes: at 4 + 11 + 2 + 22 + 7.
    assert_eq!(s.saved[198..222], [4, 0, 1, 0, 5, 0, 6, 0, 7, 0, 0, 0, 46, 0, 0, 0, 0, 0, 0, 0, 0, 0, 0, 0]);
    // The page is rewritten: l:b is fast now, l:c is new, l:a is gone. Answers are those of the moment.
    let page = [loco("c", 90_000_000), loco("b", 61_000_000)].concat();
    assert_eq!(s.page(0, &page), Ok(0));
    assert_eq!(s.quads().len(), 4);
    assert_eq!(s.bound(0), Some(5), "bindings stay");
    // Success dropped, then l:b (8) and l:c (11), each with its success, then the block is dropped.
    assert_eq!(s.run(2, 0), Ok((2, SPENT, 0)));
    assert_eq!(s.bound(0), Some(8));
    assert_eq!(s.run(100, 0), Ok((4, ENDED, 0)));
    assert_eq!(s.bound(0), Some(11));
    assert_eq!(s.run(100, 0), Ok((0, ENDED, 0)));
    assert_eq!(s.run(0, 0), Ok((0, ENDED, 0)));
}

#[test]
fn once_block_waits() {
    let mut s = station(fast_stock(false, success()));
    assert_eq!(s.page(0, &[]), Ok(0));
    assert_eq!(s.run(0, 0), Ok((0, SPENT, 0)));
    assert_eq!(s.run(1, 0), Ok((1, WAITING, 0)));
    assert_eq!(s.run(9, 0), Ok((0, WAITING, 0)));
    assert_eq!(s.page(0, &[speed("l:a", 60_000_001), name("l:a", "a")].concat()), Ok(0));
    assert_eq!(s.run(0, 0), Ok((0, SPENT, 0)), "it has an answer now");
    assert_eq!(s.run(9, 0), Ok((2, ENDED, 0)));
}

#[test]
fn blocks_without_variables() {
    // The empty tuple is tried once by an each block, and is not the same as no tuple.
    let mut s = station(each(&[], empty(), success()));
    assert_eq!(s.run(1, 0), Ok((1, SPENT, 0)));
    assert_eq!(s.saved[198..204], [0, 0, 1, 0, 0, 0]);
    assert_eq!(s.run(9, 0), Ok((2, ENDED, 0)));
    let mut s = station(once(&[], filter(vec![0x50]), success()));
    assert_eq!(s.run(9, 0), Ok((0, WAITING, 0)));
    let mut s = station(sequence(once(&[], empty(), success()), success()));
    assert_eq!(s.run(9, 0), Ok((4, ENDED, 0)));
}

/// The terms that an each block of one variable and success binds it to.
fn answers(mut s: Station, variable: usize) -> Vec<u16> {
    let mut seen = Vec::new();
    while s.run(1, 0).unwrap().1 != ENDED {
        seen.extend(s.bound(variable));
        s.run(1, 0).unwrap();
    }
    seen
}

#[test]
fn tuples_in_order_over_all_terms_in_use() {
    // range(integer) is had by properties of integer and decimal, range(decimal) by decimal only.
    let run_to_end = |code: u8| answers(station(each(&[(3, code)], empty(), success())), 3);
    assert_eq!(run_to_end(1), [0, 2, 3, 4]);
    assert_eq!(run_to_end(13), [2, 3]);
    assert_eq!(run_to_end(11), [2]);
    assert_eq!(run_to_end(10), [4]);
    assert_eq!(run_to_end(9), []);
    assert_eq!(run_to_end(5), [1]);
    assert_eq!(run_to_end(3), [1]);
    assert_eq!(run_to_end(4), []);
}

#[test]
fn now_is_lent() {
    let holds = |now_is: i64| {
        let query = filter(less(con(0), now()));
        let mut s = Station::loaded(terms(&[Term::Time(5)]), stock(), once(&[], query, success()));
        s.run(9, now_is).unwrap().1 == ENDED
    };
    assert!(holds(6) && !holds(5));
}

fn or(a: Bytes, b: Bytes) -> Bytes {
    node(0x52, &[a, b])
}

fn and(a: Bytes, b: Bytes) -> Bytes {
    node(0x53, &[a, b])
}

/// Document 02, Ask 5: a comparison, a pattern or a range on no value is unknown; so is its negation, and a filter holds
/// only on true. Terms: 0 is 10^12, 1 is "x".
#[test]
fn booleans_of_no_value() {
    let holds = |cond: Bytes| {
        let listed = terms(&[Term::Int(1_000_000_000_000), string("x")]);
        let mut s = Station::loaded(listed, stock(), once(&[], filter(cond), success()));
        s.run(9, 0).unwrap().1 == ENDED
    };
    let over = plus(con(0), con(0));
    let none = str(over.clone());
    let (yes, no) = (|| vec![0x51], || vec![0x50]);
    for unknown in [
        equal(over.clone(), over.clone()),
        equal(abs(over.clone()), con(0)),
        less(con(0), over.clone()),
        less(over.clone(), con(0)),
        equal(minus(over.clone(), over), con(0)),
        regex("", none.clone()),
        regex("^$", none.clone()),
        lang_matches("*", none.clone()),
        lang_matches("en", none.clone()),
        equal(none.clone(), con(1)),
        less(con(1), none),
    ] {
        let u = || unknown.clone();
        for cond in [u(), not(u()), not(not(u())), and(u(), yes()), and(yes(), u()), or(u(), no()), or(no(), u())] {
            assert!(!holds(cond.clone()) && !holds(not(cond)));
        }
        assert!(!holds(and(u(), u())) && !holds(or(u(), u())) && !holds(or(u(), not(u()))));
        assert!(holds(or(u(), yes())) && holds(or(yes(), u())));
        assert!(holds(not(and(u(), no()))) && holds(not(and(no(), u()))));
    }
}

/// Locomotives by their p:addr; with 10^12 added: 10^12 + 1, 10^12, 0, 5, 4 and 2 * 10^12.
const LOCOS: [(&str, i64); 6] = [
    ("l:over", 1),
    ("l:at", 0),
    ("l:low", -1_000_000_000_000),
    ("l:five", -999_999_999_995),
    ("l:four", -999_999_999_996),
    ("l:far", 1_000_000_000_000),
];

/// The locomotives whose p:addr $1 meets this. Terms: 0 g:stock, 1 is 10^12, 2 is 5, 3 is 1; then p:speed 4, p:addr 5.
fn selected(cond: Bytes) -> Vec<&'static str> {
    let listed = [uri("g:stock"), Term::Int(1_000_000_000_000), Term::Int(5), Term::Int(1)];
    let query = both(pattern(con(0), var(0), con(5), var(1)), filter(cond));
    let script = from_named(con(0), each(&[(0, 0), (1, 0)], query, success()));
    let mut s = Station::loaded(terms(&listed), stock(), script);
    let page = LOCOS.map(|(loco, n)| triple(&fill(loco.as_bytes()), &fill(b"p:addr"), &Term::Int(n)));
    assert_eq!(s.page(0, &page.concat()), Ok(0));
    assert_eq!(s.run(1, 0), Ok((1, SPENT, 0)));
    let in_use = s.terms_in_use();
    let name = |number: u16| LOCOS.into_iter().find(|(loco, _)| uri(loco) == in_use[usize::from(number)]).unwrap().0;
    answers(s, 0).into_iter().map(name).collect()
}

/// Document 02, Ask 5: a negated comparison selects no locomotive whose sum went past the limit.
#[test]
fn a_sum_that_overflows() {
    let sum = || plus(var(1), con(1));
    let under_five = || less(sum(), con(2));
    assert_eq!(selected(under_five()), ["l:low", "l:four"]);
    assert_eq!(selected(not(under_five())), ["l:at", "l:five"]);
    assert_eq!(selected(or(under_five(), not(under_five()))), ["l:at", "l:low", "l:five", "l:four"]);
    let is_one = || equal(var(1), con(3));
    assert_eq!(selected(or(not(under_five()), is_one())), ["l:over", "l:at", "l:five"]);
    assert_eq!(selected(not(and(under_five(), is_one()))), ["l:at", "l:low", "l:five", "l:four", "l:far"]);
    assert_eq!(selected(not(regex("^1", str(sum())))), ["l:low", "l:five", "l:four"]);
    assert_eq!(selected(not(lang_matches("*", str(sum())))), ["l:at", "l:low", "l:five", "l:four"]);
}

/// Document 02, Ask 2: `*` stands for any tag that is there, and what it refuses are the untagged names.
#[test]
fn the_star_and_untagged_names() {
    let names =
        [string("a"), tagged("en", "a"), tagged("-", "a"), string(""), tagged("--------", ""), tagged("e", "b")];
    let holds =
        |cond: Bytes| answers(Station::loaded(terms(&names), stock(), each(&[(0, 0)], filter(cond), success())), 0);
    let star = lang_matches("*", var(0));
    assert_eq!(holds(star.clone()), [1, 2, 4, 5]);
    assert_eq!(holds(not(star.clone())), [0, 3]);
    assert_eq!(holds(and(star, not(lang_matches("en", var(0))))), [2, 4, 5]);
    // str gives a text without a tag.
    assert_eq!(holds(and(regex("", var(0)), lang_matches("*", str(var(0))))), []);
}

#[test]
fn a_page_names_any_uri_and_replaces_only_its_graph() {
    let mut s = station(success());
    assert_eq!(s.page(0, &[name("l:a", "a"), name("l:b", "b")].concat()), Ok(0));
    assert_eq!(s.page(5, &name("l:a", "a")), Ok(0));
    assert_eq!(s.page(4, &[]), Ok(0), "a schema URI is a URI");
    let quads = s.quads();
    assert_eq!(quads, vec![[0, 5, 4, 6], [0, 7, 4, 8], [5, 5, 4, 6]]);
    assert_eq!(s.page(0, &name("l:b", "c")), Ok(0));
    assert_eq!(s.quads(), vec![[0, 7, 4, 9], [5, 5, 4, 6]], "graph 0 comes before graph 5");
    assert_eq!(s.terms_in_use().len(), 10, "terms stay");
    assert_eq!((s.number(4), s.number(70), s.number(72), s.number(74)), (3, 0, 5, 4));
    // A bad triple given twice counts 2; a wholly skipped page empties its graph.
    let wrong = triple(&fill(b"l:q"), &fill(b"p:addr"), &Term::Dec(1_000_000));
    assert_eq!(s.page(0, &wrong.repeat(2)), Ok(2));
    assert_eq!(s.quads(), vec![[5, 5, 4, 6]]);
    assert!(s.quad_table[8..].iter().all(|b| *b == 0));
    // A decimal property takes integers; 3 and 3.0 are two terms.
    let page = [Term::Int(3), Term::Dec(3_000_000)].map(|o| triple(&fill(b"l:a"), &fill(b"p:speed"), &o)).concat();
    assert_eq!(s.page(0, &page), Ok(0));
    assert_eq!(s.quads().len(), 3);
}

#[test]
fn what_means_nothing_is_zero_in_results() {
    let mut s = station(sequence(success(), success()));
    s.saved[198 + 12..].fill(0x77);
    s.saved[198 + 4..198 + 12].fill(0x66);
    s.saved[200] = 1;
    s.saved[38..70].fill(0x55);
    s.saved[70..198].fill(0x44);
    assert_eq!(s.run(0, 0), Ok((0, SPENT, 0)));
    let mut expected = vec![0; 486];
    expected[0] = 1;
    assert_eq!(s.saved, expected);
}
