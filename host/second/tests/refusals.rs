//! Every example row of the refusals table, the order of the checks, and the limits on both sides.

mod common;
use common::{stock, types, Station};
use second::limits::*;
use second::term::{fill, Term};
use second::types::Datatype;
use second::write::*;
use std::ops::Range;

fn load(terms: Vec<u8>, schema: Vec<u8>, script: Vec<u8>) -> u32 {
    Station::new(terms, schema, script).load()
}

fn load_script(script: Vec<u8>) -> u32 {
    load(terms(&[Term::Int(3), uri("u:a")]), stock(), script)
}

/// A station with term 0 an integer, terms 1 and 2 URIs, p:speed 3, p:addr 4, p:name 5.
fn station() -> Station {
    let query = pattern(con(1), var(0), con(5), var(1));
    let script = from_named(con(1), each(&[(0, 0), (1, 0)], query, success()));
    Station::loaded(terms(&[Term::Int(3), uri("u:a"), uri("u:b")]), stock(), script)
}

fn name_of(subject: &str, name: &str) -> Vec<u8> {
    triple(&fill(subject.as_bytes()), &fill(b"p:name"), &string(name))
}

#[test]
fn row_1_another_length() {
    let mut s = station();
    s.quad_table.clear();
    assert_eq!(s.load(), 1);
    assert_eq!(s.run(0, 0), Err(1));
    assert_eq!(s.page(1, &[]), Err(1));
    let mut s = station();
    s.term_table.push(0);
    assert_eq!((s.load(), s.run(0, 0), s.page(1, &[])), (1, Err(1), Err(1)));
    let mut s = station();
    s.saved.push(0);
    assert_eq!((s.load(), s.run(0, 0), s.page(1, &[])), (1, Err(1), Err(1)));
    // 1 comes before everything else.
    let mut s = Station::new(vec![0x16], vec![], vec![]);
    s.quad_table.clear();
    assert_eq!(s.load(), 1);
}

#[test]
fn row_2_bad_term() {
    assert_eq!(load(vec![0x16], vec![], vec![0x71]), 2);
    let good = |record: &[u8]| load(record.to_vec(), vec![], vec![0x71]) == 0;
    let number = |kind: u8, n: i64| [&[kind], &n.to_le_bytes()[..]].concat();
    for (kind, low, high) in [
        (0x13, -1_000_000_000_000, 1_000_000_000_000),
        (0x14, -1_000_000_000_000_000_000, 1_000_000_000_000_000_000),
        (0x15, -62_135_596_800, 253_402_300_799),
    ] {
        assert!(good(&number(kind, low)) && good(&number(kind, high)));
        assert!(!good(&number(kind, low - 1)) && !good(&number(kind, high + 1)));
    }
    let text = |kind: u8, body: &[u8]| [&[kind], body].concat();
    assert!(good(&text(0x11, &[0x21; TEXT])) && good(&text(0x11, &fill::<TEXT>(b"~"))));
    assert!(!good(&text(0x11, &[0; TEXT])), "a URI is not empty");
    assert!(!good(&text(0x11, &fill::<TEXT>(b"a b"))), "no blank in a URI");
    assert!(!good(&text(0x11, &fill::<TEXT>(b"a\x7f"))) && !good(&text(0x11, &fill::<TEXT>(b"a\0b"))));
    assert!(!good(&text(0x11, &[0x21; TEXT - 1])), "cut off");
    let string = |tag: &[u8], text: &[u8]| [&[0x12], &fill::<TAG>(tag)[..], &fill::<TEXT>(text)].concat();
    assert!(good(&string(b"", b"")) && good(&string(b"-en-gb-x", b" ~")));
    assert!(!good(&string(b"En", b"")) && !good(&string(b"e1", b"")) && !good(&string(b"e\0n", b"")));
    assert!(!good(&string(b"", b"\x1f")) && !good(&string(b"", b"a\0b")));
}

#[test]
fn row_3_term_twice() {
    let three = Term::Int(3);
    assert_eq!(load(terms(&[three, three]), vec![], vec![0x71]), 3);
    assert_eq!(load(terms(&[three, Term::Dec(3_000_000)]), vec![], vec![0x71]), 0);
    let mut many: Vec<Term> = (0..600).map(Term::Int).collect();
    assert_eq!(load(terms(&many), vec![], vec![0x71]), 6);
    assert_eq!(load(terms(&many), vec![0x22], vec![0x71]), 4);
    many.push(Term::Int(0));
    assert_eq!(load(terms(&many), vec![0x22], vec![0x71]), 3);
    assert_eq!(load([terms(&many), vec![0x16]].concat(), vec![0x22], vec![0x71]), 2);
}

#[test]
fn rows_4_and_5_schema() {
    let entry = |datatype: u8| [&[0x21], &fill::<TEXT>(b"p:name")[..], &[datatype]].concat();
    assert_eq!(load(vec![], entry(6), vec![0x71]), 4);
    assert_eq!(load(vec![], entry(0), vec![0x71]), 4);
    assert_eq!(load(vec![], entry(5), vec![0x71]), 0);
    assert_eq!(load(vec![], [entry(2), entry(2)].concat(), vec![0x71]), 5);
    assert_eq!(load(vec![], [entry(2), entry(3)].concat(), vec![]), 5);
    assert_eq!(load(vec![], [entry(2), entry(2), entry(6)].concat(), vec![]), 4);
    assert_eq!(load(vec![], [&[0x21], &[0; TEXT][..], &[2]].concat(), vec![0x71]), 4);
    let many: Vec<String> = (0..129).map(|i| format!("p:{i}")).collect();
    let many: Vec<(&str, Datatype)> = many.iter().map(|p| (p.as_str(), Datatype::String)).collect();
    assert_eq!(load(vec![], schema(&many[..128]), vec![0x71]), 0);
    assert_eq!(load(vec![], schema(&many), vec![0x71]), 6);
}

#[test]
fn row_6_malformed() {
    assert_eq!(load_script(vec![]), 6);
    assert_eq!(load_script(vec![0x71, 0x71]), 6);
    assert_eq!(load_script(vec![0x70]), 6);
    assert_eq!(load_script(empty()), 6, "a query is no script");
    let block = |head: [u8; 11]| load_script([&head[..], &[0x65, 0x71]].concat());
    assert_eq!(block([0x73, 0, 0, 0, 0, 0, 0, 0, 0, 0, 0]), 0);
    assert_eq!(block([0x73, 1, 4, 0, 1, 1, 5, 15, 9, 2, 13]), 0);
    assert_eq!(block([0x73, 2, 0, 0, 0, 0, 0, 0, 0, 0, 0]), 6, "mode");
    assert_eq!(block([0x73, 0, 5, 0, 0, 0, 0, 0, 0, 0, 0]), 6, "count");
    assert_eq!(block([0x73, 0, 1, 0, 1, 0, 0, 0, 0, 0, 1]), 6, "unused pair");
    assert_eq!(block([0x73, 0, 1, 16, 1, 0, 0, 0, 0, 0, 0]), 6, "variable");
    for code in [6, 7, 8, 14, 255] {
        assert_eq!(block([0x73, 0, 1, 0, code, 0, 0, 0, 0, 0, 0]), 6, "written type");
    }
    // Five terms in all: two listed, three from the schema.
    assert_eq!(load_script(from_named(con(4), success())), 0);
    assert_eq!(load_script(from_named(con(5), success())), 6);
    assert_eq!(load_script(once(&[], filter(regex("a**", str(con(0)))), success())), 6);
    assert_eq!(load_script(once(&[], filter(lang_matches("en*", str(con(0)))), success())), 6);
    // The fourth term of a pattern at depth 24 or 25, the root being at 1.
    let deep = |n: usize| {
        let query = pattern(con(1), con(1), con(2), con(0));
        (0..n).fold(once(&[], query, success()), |script, _| sequence(success(), script))
    };
    assert_eq!(load_script(deep(21)), 0);
    assert_eq!(load_script(deep(22)), 6);
    // 512 terms, listed and added together.
    let listed: Vec<Term> = (0..510).map(Term::Int).collect();
    assert_eq!(load(terms(&listed[..509]), stock(), vec![0x71]), 0);
    assert_eq!(load(terms(&listed), stock(), vec![0x71]), 6);
    // 2,048 script bytes.
    let longest = long_script(2048);
    assert_eq!((longest.len(), load_script(longest)), (2048, 0));
    let longer = long_script(2049);
    assert_eq!((longer.len(), load_script(longer)), (2049, 6));
}

/// A balanced tree of sequences with so many bytes, below a block of 13 if the number is even.
fn long_script(bytes: usize) -> Vec<u8> {
    match bytes {
        1 => success(),
        n if n % 2 == 0 => once(&[], filter(vec![0x51]), long_script(n - 13)),
        n => {
            let first = ((n - 1) / 2) | 1;
            sequence(long_script(first), long_script(n - 1 - first))
        }
    }
}

#[test]
fn row_7_scope() {
    assert_eq!(load_script(vec![0x72, 0x31, 0x00, 0x71]), 7);
    assert_eq!(load_script(once(&[(0, 1), (0, 1)], empty(), success())), 7);
    let bound = |then| once(&[(0, 1)], empty(), then);
    let used = from_named(var(0), success());
    assert_eq!(load_script(bound(used.clone())), 0);
    assert_eq!(load_script(sequence(bound(success()), used)), 7);
    assert_eq!(load_script(sequence(bound(success()), bound(success()))), 7);
    assert_eq!(load_script(bound(bound(success()))), 7);
    assert_eq!(load_script(once(&[], filter(equal(var(3), var(3))), success())), 7);
    // 6 comes first, 7 before 8.
    assert_eq!(load_script(sequence(from_named(var(0), success()), from_named(con(9), success()))), 6);
    assert_eq!(load_script(sequence(from_named(var(0), success()), from_named(con(0), success()))), 7);
}

#[test]
fn rows_8_and_9_typing() {
    assert_eq!(load_script(once(&[], filter(regex("", con(0))), success())), 8);
    assert_eq!(load_script(once(&[(0, 0)], empty(), success())), 9);
    assert_eq!(load_script(once(&[(0, 0)], filter(equal(str(var(0)), str(var(0)))), success())), 9);
    // A constant property that is no schema URI is 8, and 8 is for the whole script before 9.
    assert_eq!(load_script(once(&[], pattern(con(1), con(1), con(1), con(0)), success())), 8);
    assert_eq!(load_script(once(&[(0, 0)], filter(regex("", con(0))), success())), 8);
    // Written types are fixed: anyURI is no property's type.
    let property = |code| load_script(once(&[(0, code)], pattern(con(1), con(1), var(0), con(0)), success()));
    assert_eq!((property(1), property(11), property(13), property(10)), (8, 0, 0, 8));
    assert_eq!(types(&[], &[], success()), Ok(vec![]));
}

#[test]
fn row_10_unsound() {
    // Four terms: an integer, a URI and two schema URIs; the first quad names term 600 of them.
    let schema = schema(&[("p:a", Datatype::Integer), ("p:b", Datatype::String)]);
    let mut s = Station::loaded(terms(&[Term::Int(3), uri("u:a")]), schema, success());
    assert_eq!(s.page(1, &triple(&fill(b"u:a"), &fill(b"p:a"), &Term::Int(3))), Ok(0));
    assert_eq!((s.terms_in_use().len(), s.quads()), (4, vec![[1, 1, 2, 0]]));
    assert_eq!(s.run(0, 0), Ok((0, 3, 0)));
    s.quad_table[6..8].copy_from_slice(&600u16.to_le_bytes());
    assert_eq!(s.run(0, 0), Err(10));
    assert_eq!(s.page(1, &[]), Err(10));
    // 10 comes before 11 and 12.
    assert_eq!(s.run(60_001, 0), Err(10));
    assert_eq!(s.page(0, &[0x81]), Err(10));
}

#[test]
fn row_11_budget_and_now() {
    let mut s = station();
    assert_eq!(s.run(60_001, 0), Err(11));
    assert_eq!(s.run(u64::MAX, 0), Err(11));
    assert_eq!(s.run(60_000, 253_402_300_800), Err(11));
    assert_eq!(s.run(60_000, -62_135_596_801), Err(11));
    assert_eq!(s.run(60_000, 253_402_300_799), Ok((0, 1, 1)));
    assert_eq!(s.run(0, -62_135_596_800), Ok((0, 1, 1)));
}

#[test]
fn rows_12_and_13_page() {
    let mut s = station();
    assert_eq!(s.page(0, &[]), Err(12));
    assert_eq!(s.page(6, &[]), Err(12));
    assert_eq!(s.page(u64::MAX, &[]), Err(12));
    assert_eq!(s.page(0, &[0x81]), Err(12));
    assert_eq!(s.page(1, &[0x81]), Err(13));
    assert_eq!(s.page(1, &[0x86]), Err(13));
    // A record that would be skipped must be good in form too.
    let mut skipped = triple(&fill(b"u:a"), &fill(b"p:none"), &Term::Int(1));
    assert_eq!(s.page(1, &skipped), Ok(1));
    *skipped.last_mut().unwrap() = 0x7f;
    assert_eq!(s.page(1, &skipped), Err(13));
    let full = full_page();
    assert_eq!(s.page(1, &full.concat()), Ok(full.len() as u32));
    let mut over = name_of("u:a", "").repeat(full.len());
    over.truncate(PAGE + 1);
    assert_eq!((over.len(), s.page(1, &over)), (PAGE + 1, Err(13)));
}

/// Records that would be skipped, with a URI, a string and an integer, as many of each as make a page of 65,536 bytes.
fn full_page() -> Vec<Bytes> {
    let record = |object: Term| triple(&fill(b"u:a"), &fill(b"p:none"), &object);
    let records = [uri("u:b"), string(""), Term::Int(1)].map(record);
    let [a, b, c] = records.each_ref().map(Vec::len);
    assert_eq!([a, b, c], [289, 297, 201]);
    let mut counts = (0..=PAGE / a).flat_map(|uris| (0..=(PAGE - uris * a) / b).map(move |strings| (uris, strings)));
    let left = |uris: usize, strings: usize| PAGE - uris * a - strings * b;
    let (uris, strings) = counts.find(|(uris, strings)| left(*uris, *strings).is_multiple_of(c)).unwrap();
    let integers = left(uris, strings) / c;
    let counted = records.into_iter().zip([uris, strings, integers]);
    let full: Vec<Bytes> = counted.flat_map(|(record, count)| vec![record; count]).collect();
    assert_eq!(full.concat().len(), PAGE);
    full
}

#[test]
fn row_14_limits() {
    let graphs: Vec<String> = (0..65).map(|i| format!("g:{i}")).collect();
    let listed: Vec<Term> = graphs.iter().map(|g| uri(g)).collect();
    let mut s = Station::loaded(terms(&listed), stock(), success());
    for graph in 0..64 {
        assert_eq!(s.page(graph, &[]), Ok(0));
    }
    assert_eq!(s.page(64, &[]), Err(14));
    assert_eq!(s.page(63, &[]), Ok(0));
    // 68 terms so far. 444 new ones fit, 445 do not; skipped records add none. A page holds 220 names.
    let page = |names: Range<usize>| names.map(|i| name_of("g:0", &format!("name {i}"))).collect::<Vec<_>>().concat();
    assert_eq!((s.page(0, &page(0..220)), s.page(1, &page(220..440))), (Ok(0), Ok(0)));
    assert_eq!(s.page(2, &page(440..445)), Err(14));
    assert_eq!(s.terms_in_use().len(), 508);
    let skipped = triple(&fill(b"u:new"), &fill(b"p:name"), &Term::Int(77));
    assert_eq!(s.page(2, &[page(440..444), skipped].concat()), Ok(1));
    assert_eq!(s.terms_in_use().len(), 512);
    // 68 quads fit beside these 444; room set free is used again.
    assert_eq!(s.page(3, &page(0..69)), Err(14));
    assert_eq!(s.page(3, &page(0..68)), Ok(0));
    assert_eq!(s.quads().len(), 512);
    assert_eq!(s.page(4, &page(0..1)), Err(14));
    assert_eq!(s.page(3, &page(0..67)), Ok(0));
    assert_eq!(s.page(4, &page(0..1)), Ok(0));
    // 13 comes before 14.
    assert_eq!(s.page(64, &[0x81]), Err(13));
}
