//! Document 02, Ask 10: one order for quads. A page call leaves it, a store in another order meets refusal 10, and stations that
//! are filled alike have the same bytes.

mod common;
use common::{stock, Station};
use second::term::fill;
use second::write::*;

/// Terms: 0 g:a, 1 g:b, 2 g:c, 3 l:x, 4 l:y, 5 "x", 6 "y"; then p:speed 7, p:addr 8, p:name 9.
fn station() -> Station {
    let graphs = ["g:a", "g:b", "g:c", "l:x", "l:y"].map(uri);
    let listed = [&graphs[..], &[string("x"), string("y")]].concat();
    Station::loaded(terms(&listed), stock(), success())
}

fn name(subject: &str, text: &str) -> Bytes {
    triple(&fill(subject.as_bytes()), &fill(b"p:name"), &string(text))
}

/// All names of both, in the order of their quads.
fn names() -> Vec<Bytes> {
    [("l:x", "x"), ("l:x", "y"), ("l:y", "x"), ("l:y", "y")].map(|(subject, text)| name(subject, text)).to_vec()
}

/// A station with two names in g:a and two in g:c.
fn filled() -> Station {
    let mut s = station();
    assert_eq!((s.page(0, &names()[1..3].concat()), s.page(2, &names()[..2].concat())), (Ok(0), Ok(0)));
    s
}

/// Every order of these.
fn orders<T: Clone>(list: &[T]) -> Vec<Vec<T>> {
    let mut all = Vec::new();
    for place in 0..list.len() {
        let mut rest = list.to_vec();
        let first = rest.remove(place);
        all.extend(orders(&rest).into_iter().map(|rest| [vec![first.clone()], rest].concat()));
    }
    if list.is_empty() {
        vec![Vec::new()]
    } else {
        all
    }
}

/// The saved run says how many quads there are, so where it agrees too, so do the sets of quads.
fn tables(s: &Station) -> [&[u8]; 3] {
    [&s.term_table, &s.quad_table, &s.saved]
}

#[test]
fn a_page_call_leaves_it_byte_for_byte() {
    let mut s = filled();
    // g:b stands between the two; its records come backwards, and one of them twice.
    let backwards: Vec<Bytes> = names().into_iter().rev().chain([name("l:y", "x")]).collect();
    assert_eq!(s.page(1, &backwards.concat()), Ok(0));
    let rows: [[u8; 8]; 8] = [
        [0, 0, 3, 0, 9, 0, 6, 0],
        [0, 0, 4, 0, 9, 0, 5, 0],
        [1, 0, 3, 0, 9, 0, 5, 0],
        [1, 0, 3, 0, 9, 0, 6, 0],
        [1, 0, 4, 0, 9, 0, 5, 0],
        [1, 0, 4, 0, 9, 0, 6, 0],
        [2, 0, 3, 0, 9, 0, 5, 0],
        [2, 0, 3, 0, 9, 0, 6, 0],
    ];
    assert_eq!(s.quad_table[..64], rows.concat());
    assert!(s.quad_table[64..].iter().all(|byte| *byte == 0));
    // What a graph leaves free is closed up.
    assert_eq!(s.page(1, &[]), Ok(0));
    assert_eq!(s.quad_table[..32], [rows[0], rows[1], rows[6], rows[7]].concat());
    assert!(s.quad_table[32..].iter().all(|byte| *byte == 0));
}

#[test]
fn the_property_weighs_more_than_the_object() {
    // l:x has a speed (property 7) of a new number, term 10, and a name (property 9) of term 5: the name comes second.
    let mut s = station();
    let speed = triple(&fill(b"l:x"), &fill(b"p:speed"), &second::term::Term::Int(4));
    assert_eq!(s.page(0, &[name("l:x", "x"), speed].concat()), Ok(0));
    assert_eq!(s.quads(), [[0, 3, 7, 10], [0, 3, 9, 5]]);
}

#[test]
fn numbers_are_compared_and_not_their_bytes() {
    // Terms 0 to 299 are URIs: 256 is 00 01 as bytes, 1 is 01 00.
    let listed: Vec<_> = (0..300).map(|n| uri(&format!("u:{n}"))).collect();
    let schema = schema(&[("p:friend", second::types::Datatype::AnyUri)]);
    let mut s = Station::loaded(terms(&listed), schema, success());
    let friend = |a: usize, b: usize| {
        let body = |n| fill(format!("u:{n}").as_bytes());
        triple(&body(a), &fill(b"p:friend"), &listed[b])
    };
    assert_eq!(s.page(256, &friend(1, 1)), Ok(0));
    assert_eq!(s.page(1, &[friend(256, 1), friend(1, 256), friend(1, 1)].concat()), Ok(0));
    assert_eq!(s.quads(), [[1, 1, 300, 1], [1, 1, 300, 256], [1, 256, 300, 1], [256, 1, 300, 1]]);
}

#[test]
fn every_other_order_meets_10() {
    let rows: Vec<Vec<u8>> = filled().quad_table[..32].chunks(8).map(<[u8]>::to_vec).collect();
    let orders = orders(&rows);
    assert_eq!(orders.len(), 24);
    for order in orders {
        let mut s = filled();
        s.quad_table[..32].copy_from_slice(&order.concat());
        if order == rows {
            assert_eq!((s.run(0, 0), s.page(1, &[])), (Ok((0, 3, 0)), Ok(0)));
        } else {
            assert_eq!((s.run(0, 0), s.page(1, &[])), (Err(10), Err(10)), "{order:?}");
            // 10 comes before 11, 12 and 13.
            assert_eq!((s.run(60_001, 0), s.page(5, &[]), s.page(1, &[0x81])), (Err(10), Err(10), Err(10)));
        }
    }
}

#[test]
fn a_quad_twice_meets_10() {
    let rows: Vec<Vec<u8>> = filled().quad_table[..32].chunks(8).map(<[u8]>::to_vec).collect();
    for again in 0..4 {
        for place in 0..=4 {
            let mut s = filled();
            let mut more = rows.clone();
            more.insert(place, rows[again].clone());
            s.quad_table[..40].copy_from_slice(&more.concat());
            s.saved[2] = 5;
            assert_eq!((s.run(0, 0), s.page(1, &[])), (Err(10), Err(10)), "{again} at {place}");
        }
    }
    // A gap, with the quads behind it in order.
    let mut s = filled();
    s.quad_table.copy_within(24..32, 32);
    s.quad_table[24..32].fill(0);
    s.saved[2] = 5;
    assert_eq!(s.run(0, 0), Err(10));
}

#[test]
fn stations_filled_alike_have_the_same_bytes() {
    let expected = filled();
    // The terms are numbered already, so the order of a page's records tells nothing.
    for page in orders(&[1, 2, 1]) {
        let mut s = station();
        let page: Vec<Bytes> = page.into_iter().map(|place| names()[place].clone()).collect();
        assert_eq!((s.page(0, &page.concat()), s.page(2, &names()[..2].concat())), (Ok(0), Ok(0)));
        assert_eq!(tables(&s), tables(&expected));
    }
    // A page taken twice, with the other graph's in between; and once more after it was another.
    let mut s = filled();
    for (graph, page) in [(0, &names()[1..3]), (2, &names()[..2]), (0, &names()[..]), (0, &names()[1..3])] {
        assert_eq!(s.page(graph, &page.concat()), Ok(0));
    }
    assert_eq!(tables(&s), tables(&expected));
    // The graphs the other way round: both tables are the same, the fetched list is in the order of their first pages.
    let mut s = station();
    assert_eq!((s.page(2, &names()[..2].concat()), s.page(0, &names()[1..3].concat())), (Ok(0), Ok(0)));
    assert_eq!(tables(&s)[..2], tables(&expected)[..2]);
    assert_eq!([s.number(70), s.number(72)], [2, 0]);
}
