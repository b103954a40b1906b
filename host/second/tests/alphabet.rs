//! Document 02, Ask 9: the ranks that load, run and page are lent. Refusal 21 stands straight after 1; less on strings goes by the
//! ranks of the call, texts and tags, and nothing else does.

mod common;
use common::{stock, Station};
use second::rank::BUILT_IN;
use second::term::{fill, Term};
use second::types::Datatype;
use second::write::*;

const ENDED: u8 = 0;
const SPENT: u8 = 3;

fn turned(ranks: &[u8]) -> Vec<u8> {
    ranks.iter().map(|rank| 94 - rank).collect()
}

fn by_byte() -> Vec<u8> {
    (0..95).collect()
}

/// The built-in ranks with other ones in some places.
fn with(places: &[(usize, u8)]) -> Vec<u8> {
    let mut ranks = BUILT_IN.to_vec();
    for (place, rank) in places {
        ranks[*place] = *rank;
    }
    ranks
}

/// Ranks of 95 bytes that are no such list: one twice and so another missing, one of 95 and more, counted from 1, all alike.
fn bad_lists() -> Vec<Vec<u8>> {
    let first = BUILT_IN[0];
    let last = BUILT_IN[94];
    let mut all = vec![
        with(&[(0, BUILT_IN[1])]),
        with(&[(94, first)]),
        with(&[(0, last)]),
        with(&[(40, BUILT_IN[41])]),
        with(&[(0, 95)]),
        with(&[(94, 95)]),
        with(&[(7, 127)]),
        with(&[(7, 128)]),
        with(&[(7, BUILT_IN[7] + 128)]),
        with(&[(60, 255)]),
        with(&[(3, 200), (4, 200)]),
        BUILT_IN.iter().map(|rank| rank + 1).collect(),
        vec![0; 95],
    ];
    // Two wrong places: one rank twice, and one past the end.
    all.push(with(&[(1, BUILT_IN[2]), (3, 95)]));
    all
}

/// A station with term 0 the graph, 1 an integer; p:speed 2, p:addr 3, p:name 4; an each block over the names $n 1 of $s 0.
fn station() -> Station {
    let query = pattern(con(0), var(0), con(4), var(1));
    let script = from_named(con(0), each(&[(0, 0), (1, 0)], query, success()));
    Station::loaded(terms(&[uri("g:stock"), Term::Int(3)]), stock(), script)
}

#[test]
fn row_21_not_each_rank_once() {
    for bad in bad_lists() {
        let mut s = station();
        s.ranks.clone_from(&bad);
        assert_eq!((s.load(), s.run(0, 0), s.page(0, &[])), (21, Err(21), Err(21)), "{bad:?}");
    }
    for good in [BUILT_IN.to_vec(), turned(&BUILT_IN), by_byte(), turned(&by_byte())] {
        let mut s = station();
        s.ranks = good;
        assert_eq!((s.load(), s.run(0, 0), s.page(0, &[])), (0, Ok((0, 1, 0)), Ok(0)));
    }
}

#[test]
fn another_length_is_1() {
    for length in [0, 1, 94, 96, 190] {
        let mut s = station();
        s.ranks = BUILT_IN.iter().copied().cycle().take(length).collect();
        assert_eq!((s.load(), s.run(0, 0), s.page(0, &[])), (1, Err(1), Err(1)), "{length}");
        s.ranks.fill(255);
        assert_eq!((s.load(), s.run(0, 0), s.page(0, &[])), (1, Err(1), Err(1)), "{length}");
    }
}

/// 1 comes before 21, 21 before everything else.
#[test]
fn straight_after_1() {
    let bad = bad_lists().remove(0);
    for buffer in 0..3 {
        let mut s = station();
        s.ranks.clone_from(&bad);
        [&mut s.term_table, &mut s.quad_table, &mut s.saved][buffer].push(0);
        assert_eq!((s.load(), s.run(0, 0), s.page(0, &[])), (1, Err(1), Err(1)));
    }
    let load = |terms: Vec<u8>, schema: Vec<u8>, script: Vec<u8>| {
        let mut s = Station::new(terms, schema, script);
        let good = s.load();
        s.ranks.clone_from(&bad);
        (good, s.load())
    };
    let three = terms(&[Term::Int(3)]);
    assert_eq!(load(vec![0x16], vec![], success()), (2, 21));
    assert_eq!(load(three.repeat(2), vec![], success()), (3, 21));
    assert_eq!(load(vec![], vec![0x22], success()), (4, 21));
    assert_eq!(load(vec![], schema(&[("p:a", Datatype::String); 2]), success()), (5, 21));
    assert_eq!(load(vec![], vec![], vec![]), (6, 21));
    assert_eq!(load(vec![], vec![], from_named(var(0), success())), (7, 21));
    assert_eq!(load(three, vec![], once(&[], filter(regex("", con(0))), success())), (8, 21));
    assert_eq!(load(vec![], vec![], once(&[(0, 0)], empty(), success())), (9, 21));

    let mut s = station();
    s.ranks.clone_from(&bad);
    assert_eq!((s.run(60_001, 0), s.page(1, &[]), s.page(0, &[0x81])), (Err(21), Err(21), Err(21)));
    s.saved[0] = 25;
    assert_eq!((s.run(0, 0), s.page(0, &[])), (Err(21), Err(21)));
    s.ranks = BUILT_IN.to_vec();
    assert_eq!((s.run(0, 0), s.page(0, &[])), (Err(10), Err(10)));
}

/// The names that come before another one, pair by pair in the order of their numbers, under these ranks.
fn less_pairs(names: &[Term], ranks: &[u8]) -> Vec<(u16, u16)> {
    let script = each(&[(0, 2), (1, 2)], filter(less(var(0), var(1))), success());
    let mut s = Station::new(terms(names), vec![], script);
    s.ranks = ranks.to_vec();
    assert_eq!(s.load(), 0);
    let mut pairs = Vec::new();
    while s.run(1, 0).unwrap().1 != ENDED {
        pairs.extend(s.bound(0).zip(s.bound(1)));
        s.run(1, 0).unwrap();
    }
    pairs
}

#[test]
fn texts_and_tags_by_the_lent_ranks() {
    // 0 "a", 1 "B", 2 "b", 3 "a ", 4 "a"@en, 5 "a"@en-gb, 6 "a"@eng.
    let names = [
        string("a"),
        string("B"),
        string("b"),
        string("a "),
        tagged("en", "a"),
        tagged("en-gb", "a"),
        tagged("eng", "a"),
    ];
    // All pairs of a rising list.
    let rising = |order: &[u16]| {
        let mut pairs: Vec<(u16, u16)> = Vec::new();
        for (place, low) in order.iter().enumerate() {
            pairs.extend(order[place + 1..].iter().map(|high| (*low, *high)));
        }
        pairs.sort_unstable();
        pairs
    };
    assert_eq!(less_pairs(&names, &BUILT_IN), rising(&[0, 4, 6, 5, 3, 1, 2]));
    assert_eq!(less_pairs(&names, &by_byte()), rising(&[1, 0, 4, 5, 6, 3, 2]));
    // Turned round, the end still comes first.
    assert_eq!(less_pairs(&names, &turned(&BUILT_IN)), rising(&[2, 1, 0, 4, 5, 6, 3]));
    assert_eq!(less_pairs(&names, &turned(&by_byte())), rising(&[2, 0, 4, 6, 5, 3, 1]));
    // Two ranks exchanged: "B" before "a", and all else as it was.
    let at = |byte: u8| usize::from(byte - 0x20);
    let exchanged = with(&[(at(b'B'), BUILT_IN[at(b'a')]), (at(b'a'), BUILT_IN[at(b'B')])]);
    assert_eq!(less_pairs(&names, &exchanged), rising(&[1, 0, 4, 6, 5, 3, 2]));
}

/// Texts that str gives go by the ranks too; URIs, numbers and dateTimes do not, nor do equal, patterns and ranges.
#[test]
fn nothing_else_goes_by_them() {
    // Terms: 0 u:a, 1 u:b, 2 is 1, 3 is 2, 4 and 5 seconds 1 and 2, 6 "ab"@en.
    let listed = [uri("u:a"), uri("u:b"), Term::Int(1), Term::Int(2), Term::Time(1), Term::Time(2), tagged("en", "ab")];
    let holds = |cond: Bytes, ranks: Vec<u8>| {
        let mut s = Station::new(terms(&listed), vec![], once(&[], filter(cond), success()));
        s.ranks = ranks;
        assert_eq!(s.load(), 0);
        s.run(9, 0).unwrap().1 == ENDED
    };
    for ranks in [BUILT_IN.to_vec(), by_byte(), turned(&BUILT_IN)] {
        let true_of_all = [
            less(con(0), con(1)),
            less(con(2), con(3)),
            less(con(4), con(5)),
            less(now(), con(4)),
            equal(con(6), con(6)),
            equal(str(con(0)), str(con(0))),
            regex("^ab$", con(6)),
            lang_matches("en", con(6)),
        ];
        for cond in true_of_all {
            assert!(holds(cond.clone(), ranks.clone()) && !holds(not(cond), ranks.clone()));
        }
        for cond in [less(con(1), con(0)), less(con(3), con(2)), less(con(5), con(4)), less(con(6), con(6))] {
            assert!(!holds(cond, ranks.clone()));
        }
    }
    let by_text = less(str(con(0)), str(con(1)));
    assert!(holds(by_text.clone(), BUILT_IN.to_vec()) && !holds(by_text, turned(&BUILT_IN)));
}

/// A load and a page leave the same bytes under any ranks, and so the saved run does not hold them: any call may be lent others.
#[test]
fn each_call_goes_by_its_own() {
    // Terms: 0 g:stock, 1 l:1; p:speed 2, p:addr 3, p:name 4; from the page "a" 5, "b" 6. Two names of l:1, the first less than the second.
    let name = |variable| pattern(con(0), con(1), con(4), var(variable));
    let query = both(both(name(0), name(1)), filter(less(var(0), var(1))));
    let script = from_named(con(0), each(&[(0, 0), (1, 0)], query, success()));
    let page = ["a", "b"].map(|text| triple(&fill(b"l:1"), &fill(b"p:name"), &string(text))).concat();
    let mut stations = [BUILT_IN.to_vec(), turned(&BUILT_IN)].map(|ranks| {
        let mut s = Station::new(terms(&[uri("g:stock"), uri("l:1")]), stock(), script.clone());
        s.ranks = ranks;
        assert_eq!((s.load(), s.page(0, &page), s.run(1, 0)), (0, Ok(0), Ok((1, SPENT, 0))));
        s
    });
    let bytes = |s: &Station| [s.term_table.clone(), s.quad_table.clone(), s.saved.clone()];
    assert_eq!(bytes(&stations[0]), bytes(&stations[1]));
    for (s, answer) in stations.iter_mut().zip([(5, 6), (6, 5)]) {
        assert_eq!(s.run(1, 0), Ok((1, SPENT, 0)));
        assert_eq!(s.bound(0).zip(s.bound(1)), Some(answer));
    }
    // The first one goes on by ranks turned round: after (5, 6) comes (6, 5), which is an answer now.
    let [s, _] = &mut stations;
    s.ranks = turned(&BUILT_IN);
    assert_eq!(s.run(2, 0), Ok((2, SPENT, 0)));
    assert_eq!(s.bound(0).zip(s.bound(1)), Some((6, 5)));
    // And by the built-in ones again: nothing is left.
    s.ranks = BUILT_IN.to_vec();
    assert_eq!(s.run(9, 0), Ok((2, ENDED, 0)));
}
