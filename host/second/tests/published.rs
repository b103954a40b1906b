//! A graph as a page: document 02's Ask 11, sentence by sentence.

mod common;
use common::{Station, ENGINES};
use second::limits::*;
use second::page::read;
use second::term::{fill, Term, Uri};
use second::types::Datatype;
use second::write::*;

/// A property of each datatype.
const LIKES: &str = "p:likes";
const NAME: &str = "p:name";
const SPEED: &str = "p:speed";
const BUILT: &str = "p:built";
const ADDR: &str = "p:addr";

/// Room for every page.
const ROOM: usize = 200_000;

fn entries() -> [(&'static str, Datatype); 5] {
    [
        (LIKES, Datatype::AnyUri),
        (NAME, Datatype::String),
        (SPEED, Datatype::Decimal),
        (BUILT, Datatype::DateTime),
        (ADDR, Datatype::Integer),
    ]
}

/// Loaded with these terms, the properties after them.
fn station(listed: &[Term]) -> Station {
    Station::loaded(terms(listed), schema(&entries()), success())
}

/// Terms 0 and 1 are graphs, 2 is none.
fn yards() -> Station {
    station(&[uri("u:yard"), uri("u:other"), Term::Int(3)])
}

fn field(text: &str) -> Uri {
    fill(text.as_bytes())
}

fn row(subject: &str, property: &str, object: Term) -> Bytes {
    triple(&field(subject), &field(property), &object)
}

/// A station whose graph 0 was filled by these records, none of them skipped.
fn filled(records: &[Bytes]) -> Station {
    let mut station = yards();
    assert_eq!(station.page(0, &records.concat()), Ok(0));
    station
}

/// What graph 0 publishes.
fn published(station: &Station) -> Bytes {
    station.publish(0, ROOM).unwrap()
}

#[test]
fn an_empty_graph_is_an_empty_page() {
    let mut station = yards();
    assert_eq!(station.page(1, &[]), Ok(0));
    for room in [0, 1, 300] {
        assert_eq!(station.publish(1, room), Ok(Bytes::new()));
    }
    // Emptied by another page.
    let mut station = filled(&[row("u:a", ADDR, Term::Int(3))]);
    assert_eq!(station.page(0, &[]), Ok(0));
    assert_eq!(published(&station), []);
    // A page of which all is skipped fills nothing.
    assert_eq!(station.page(0, &row("u:a", NAME, Term::Int(3))), Ok(1));
    assert_eq!(published(&station), []);
}

#[test]
fn one_record_of_each_kind() {
    let objects = [uri("u:b"), tagged("en", "Mallard"), Term::Int(3), Term::Dec(3_000_000), Term::Time(-1)];
    let properties = [LIKES, NAME, ADDR, SPEED, BUILT];
    for ((object, property), kind) in objects.into_iter().zip(properties).zip(0x81u8..) {
        let record = row("u:a", property, object);
        assert_eq!(record[0], kind);
        assert_eq!(published(&filled(std::slice::from_ref(&record))), record);
    }
    // An integer under a property of decimals stays an integer.
    let record = row("u:a", SPEED, Term::Int(126));
    assert_eq!(published(&filled(std::slice::from_ref(&record))), record);
}

/// Kind first, then subject, property and object. Each row comes before the next, and what weighs less falls where it can.
#[test]
fn rising_order_of_bytes() {
    let rows = [
        row("u:z", LIKES, uri("u:z")),
        row("u:a", NAME, tagged("en", "Z")),
        row("u:b", NAME, string("")),
        row("u:b", NAME, string("Z")),
        row("u:b", NAME, string("a")),
        row("u:b", NAME, string("aa")),
        // The tag stands before the text.
        row("u:b", NAME, tagged("de", "")),
        row("u:b", NAME, tagged("en", "A")),
        row("u:z", ADDR, Term::Int(0)),
        row("u:z", SPEED, Term::Int(0)),
        row("u:z", SPEED, Term::Dec(0)),
        row("u:a", BUILT, Term::Time(9)),
        // Bytes are not signed, and a text that begins another comes before it.
        row("u:~", BUILT, Term::Time(9)),
        row("u:~~", BUILT, Term::Time(9)),
    ];
    let expected = rows.concat();
    let turned: Vec<Bytes> = rows.iter().rev().cloned().collect();
    assert_eq!(published(&filled(&rows)), expected);
    assert_eq!(published(&filled(&turned)), expected);
}

/// A number's bytes are little endian and in two's complement, and their order is not that of the amounts.
#[test]
fn numbers_by_their_bytes() {
    // 00 00, 00 01, 00 02, 00 ff, 01 00, 01 01, fe ff, ff 00, ff ff
    let by_bytes = [0, 256, 512, -256, 1, 257, -2, 255, -1];
    for (property, term) in
        [(ADDR, Term::Int as fn(i64) -> Term), (SPEED, Term::Dec as fn(i64) -> Term), (BUILT, Term::Time)]
    {
        let rows: Vec<Bytes> = by_bytes.iter().map(|n| row("u:a", property, term(*n))).collect();
        assert!(rows.is_sorted());
        let mut amounts = by_bytes;
        amounts.sort_unstable();
        let by_amount: Vec<Bytes> = amounts.iter().map(|n| row("u:a", property, term(*n))).collect();
        assert_eq!(published(&filled(&by_amount)), rows.concat());
    }
}

#[test]
fn each_once_and_of_its_graph_alone() {
    let (mine, both, other) =
        (row("u:a", ADDR, Term::Int(1)), row("u:b", ADDR, Term::Int(1)), row("u:c", ADDR, Term::Int(1)));
    let mut station = filled(&[both.clone(), mine.clone(), both.clone(), mine.clone()]);
    assert_eq!(station.page(1, &[other.clone(), both.clone()].concat()), Ok(0));
    assert_eq!(published(&station), [mine, both.clone()].concat());
    assert_eq!(station.publish(1, ROOM), Ok([both, other].concat()));
}

#[test]
fn the_buffer() {
    let record = row("u:a", ADDR, Term::Int(1));
    let station = filled(&[record.clone(), row("u:b", NAME, string("Adler"))]);
    let length = published(&station).len();
    assert_eq!(length, 2 * (1 + 2 * TEXT) + 8 + TAG + TEXT);
    for room in [0, 1, record.len(), length - 1] {
        assert_eq!(station.publish(0, room), Err(23), "{room}");
    }
    for room in [length, length + 1, ROOM] {
        assert_eq!(station.publish(0, room), Ok(published(&station)), "{room}");
    }
}

/// Refusals 1, 10, 22 and 23, in that order.
#[test]
fn refusals() {
    let good = filled(&[row("u:a", ADDR, Term::Int(1))]);
    // Not fetched: a URI, no URI, a property, a term that a page brought, a number past the terms, past the table, past 16 bits.
    for graph in [1, 2, 3, 8, 9, 511, 512, 65_535, 65_536, 1 << 32, u64::MAX] {
        assert_eq!(good.publish(graph, 0), Err(22), "{graph}");
        assert_eq!(good.publish(graph, ROOM), Err(22), "{graph}");
    }
    assert_eq!(good.publish(0, 0), Err(23));
    // A quad that names a term of none; a graph that is not fetched besides, and a short buffer.
    let mut unsound = good.clone();
    unsound.quad_table[2..4].copy_from_slice(&600u16.to_le_bytes());
    assert_eq!(
        [(0, ROOM), (1, ROOM), (0, 0)].map(|(graph, room)| unsound.publish(graph, room)),
        [(); 3].map(|()| Err(10))
    );
    // Of another card.
    let other = Station { script: vec![], ..good.clone() };
    assert_eq!(other.publish(1, 0), Err(10));
    let no_card = Station { terms: vec![0x16], ..good.clone() };
    assert_eq!(no_card.publish(1, 0), Err(10));
    // Another length of a table, of the saved run, of the report; whatever else is wrong.
    for place in 0..3 {
        for longer in [false, true] {
            let mut odd = unsound.clone();
            let buffer = [&mut odd.term_table, &mut odd.quad_table, &mut odd.saved].into_iter().nth(place).unwrap();
            let length = if longer { buffer.len() + 1 } else { buffer.len() - 1 };
            buffer.resize(length, 0);
            assert_eq!(odd.publish(1, 0), Err(1));
        }
    }
    for (engine, length) in ENGINES.iter().zip([0, PUBLISH_REPORT + 1]) {
        let (mut page, mut report) = (vec![0xaa; 9], vec![0xaa; length]);
        let card = [&unsound.terms[..], &unsound.schema, &unsound.script];
        let tables = [&unsound.term_table[..], &unsound.quad_table, &unsound.saved];
        let outcome = engine.publish(card, tables, 1, &mut page, &mut report);
        assert_eq!(outcome.map_err(|refusal| refusal.number), Err(1));
        assert_eq!((page, report), (vec![0xaa; 9], vec![0xaa; length]));
    }
}

/// It is lent no ranks.
#[test]
fn ranks_are_not_asked() {
    let good = filled(&[row("u:a", ADDR, Term::Int(1))]);
    let page = published(&good);
    let no_ranks = Station { ranks: vec![0; 3], ..good };
    assert_eq!(published(&no_ranks), page);
}

/// A store of all kinds, in which subjects are objects and graphs too.
fn all_kinds() -> Vec<Bytes> {
    vec![
        row("u:b", NAME, tagged("en", "Mallard")),
        row("u:a", BUILT, Term::Time(LAST_SECOND)),
        row("u:yard", LIKES, uri("u:yard")),
        row("u:a", SPEED, Term::Dec(-500_000)),
        row("u:b", LIKES, uri("u:other")),
        row("u:a", SPEED, Term::Int(-INTEGER)),
        row("u:p", LIKES, uri(NAME)),
        row(NAME, NAME, string("a name's name")),
        row("u:b", ADDR, Term::Int(3)),
    ]
}

#[test]
fn taken_in_again_it_leaves_the_store_as_it_was() {
    let mut station = filled(&all_kinds());
    assert_eq!(station.page(1, &row("u:c", NAME, string("")).repeat(2)), Ok(0));
    // A record that is skipped brings no term.
    assert_eq!(station.page(1, &[row("u:d", NAME, Term::Int(4)), row("u:a", ADDR, Term::Int(5))].concat()), Ok(1));
    for graph in [0, 1] {
        let page = station.publish(graph, ROOM).unwrap();
        let mut again = station.clone();
        assert_eq!(again.page(graph, &page), Ok(0));
        assert_eq!(
            (&again.term_table, &again.quad_table, &again.saved),
            (&station.term_table, &station.quad_table, &station.saved)
        );
        assert_eq!(again.publish(graph, ROOM), Ok(page));
    }
}

/// A graph filled by a page call publishes into as many bytes as that page had, fewer where it had records twice or skipped ones.
#[test]
fn as_many_bytes_as_its_page_had() {
    let all = all_kinds();
    let page = all.concat();
    assert_eq!(filled(&all).publish(0, page.len()).unwrap().len(), page.len());
    let mut station = filled(&all);
    let more = [&page[..], &all[0], &row("u:a", NAME, Term::Int(3))].concat();
    assert_eq!(station.page(0, &more), Ok(1));
    assert_eq!(station.publish(0, page.len()).unwrap().len(), page.len());
}

/// The same triples under other numbers are the same bytes.
#[test]
fn two_stations() {
    let all = all_kinds();
    let first = published(&filled(&all));
    // Terms listed in another order, properties before them, another card's schema order, other pages before.
    let listed = [string("x"), uri(ADDR), Term::Int(3), uri("u:b"), uri("u:yard"), uri("u:other")];
    let mut turned = entries();
    turned.reverse();
    let mut other = Station::loaded(terms(&listed), schema(&turned), from_named(con(4), success()));
    assert_eq!(other.page(5, &[row("u:z", NAME, string("z")), all[1].clone()].concat()), Ok(0));
    let records: Vec<Bytes> = all.iter().rev().cloned().collect();
    assert_eq!(other.page(4, &records.concat()), Ok(0));
    assert_ne!(other.terms_in_use(), filled(&all).terms_in_use());
    assert_eq!(other.publish(4, ROOM), Ok(first));
}

/// Texts of 40, 41, 95 and 96 bytes stand in a published page whole, and the last byte decides their order.
#[test]
fn long_texts() {
    for bytes in [40, 41, TEXT - 1, TEXT] {
        let text = |last: &str| format!("{last:x>bytes$}");
        let property = text("p");
        let entry = [(&property[..], Datatype::String), (LIKES, Datatype::AnyUri)];
        let mut station = Station::loaded(terms(&[uri(&text("g"))]), schema(&entry), success());
        let rows = [
            row(&text("s"), LIKES, uri(&text("a"))),
            row(&text("s"), LIKES, uri(&text("b"))),
            row(&text("t"), LIKES, uri(&text("a"))),
            row(&text("s"), &property, tagged("en", &text("a"))),
            row(&text("s"), &property, tagged("en", &text("b"))),
            row(&text("t"), &property, tagged("en", &text("a"))),
        ];
        assert!(rows.is_sorted());
        let turned: Vec<Bytes> = rows.iter().rev().cloned().collect();
        assert_eq!(station.page(0, &turned.concat()), Ok(0));
        let page = station.publish(0, rows.concat().len()).unwrap();
        assert_eq!(page, rows.concat(), "{bytes} bytes");
        let mut again = station.clone();
        assert_eq!((again.page(0, &page), &again.term_table), (Ok(0), &station.term_table));
    }
}

/// As many quads as there may be in one graph, which no page call fills so: the page is longer than one may be that is taken in.
#[test]
fn longer_than_a_page_that_is_taken_in() {
    let mut station = yards();
    let rows = |graph: u64| (0..256).map(move |n| row(&format!("u:{graph}:{}", n / 16), ADDR, Term::Int(n % 16)));
    for graph in [0, 1] {
        assert_eq!(station.page(graph, &rows(graph).collect::<Vec<_>>().concat()), Ok(0));
    }
    // All of them in graph 0, in order.
    let mut quads: Vec<[u16; 4]> = station.quads().into_iter().map(|[_, s, p, o]| [0, s, p, o]).collect();
    quads.sort_unstable();
    let bytes: Vec<u8> = quads.iter().flatten().flat_map(|number| number.to_le_bytes()).collect();
    station.quad_table[..bytes.len()].copy_from_slice(&bytes);
    let page = published(&station);
    assert_eq!(page.len(), QUADS * (1 + 2 * TEXT + 8));
    assert!(page.len() > PAGE);
    let mut expected: Vec<Bytes> = rows(0).chain(rows(1)).collect();
    expected.sort_unstable();
    assert_eq!(page, expected.concat());
    assert_eq!(station.publish(0, page.len() - 1), Err(23));
    assert_eq!(station.publish(0, PAGE), Err(23));
    assert_eq!(station.clone().page(0, &page), Err(13));
    assert_eq!(station.publish(1, 0), Ok(Bytes::new()));
    // By halves it can be read.
    let half = page.len() / 2;
    assert_eq!([&page[..half], &page[half..]].map(|half| read(half).unwrap().len()), [QUADS / 2; 2]);
}
