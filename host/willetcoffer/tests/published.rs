//! Graphs as pages, through the safe interface and with buffers of any length.

use willetcoffer::limits::{
    OBJECT_OFFSET, PAGE_LIMIT, PUBLISH_REPORT_WIDTH, QUAD_LIMIT, QUAD_TABLE_WIDTH, SAVED_WIDTH, TERM_TABLE_WIDTH,
    TEXT_WIDTH,
};
use willetcoffer::page::{record_width, records, terms, triple, LONGEST_RECORD};
use willetcoffer::raw::{self, TablesRef};
use willetcoffer::script::{con, from_named, success};
use willetcoffer::{Card, Datatype, Refusal, SavedRun, Tables, Term};

fn uri(text: &str) -> Term {
    Term::uri(text).unwrap()
}

/// The properties, one for each datatype.
fn schema() -> [(Term, Datatype); 5] {
    [
        (uri("p:likes"), Datatype::AnyUri),
        (uri("p:name"), Datatype::String),
        (uri("p:speed"), Datatype::Decimal),
        (uri("p:built"), Datatype::DateTime),
        (uri("p:addr"), Datatype::Integer),
    ]
}

/// Terms 0 and 1 are graphs; 2 to 6 the properties.
fn card() -> Card {
    Card::new(&[uri("u:yard"), uri("u:other")], &schema(), success())
}

fn row(subject: &str, property: &str, object: Term) -> Vec<u8> {
    triple(&uri(subject), &uri(property), &object).unwrap()
}

/// Records of all kinds, rising.
fn rows() -> Vec<Vec<u8>> {
    let rows = vec![
        row("u:a", "p:likes", uri("u:b")),
        row("u:b", "p:likes", uri("u:a")),
        row("u:a", "p:name", Term::string("Zebra").unwrap()),
        row("u:a", "p:name", Term::tagged("en", "Adler").unwrap()),
        // 00 01 before 01 00.
        row("u:a", "p:addr", Term::integer(256).unwrap()),
        row("u:a", "p:addr", Term::integer(1).unwrap()),
        row("u:a", "p:speed", Term::integer(1).unwrap()),
        row("u:a", "p:speed", Term::decimal(126_400_000).unwrap()),
        row("u:a", "p:built", Term::date_time(0).unwrap()),
    ];
    assert!(rows.is_sorted());
    rows
}

/// A station whose graph 0 has these records, taken in from the last on.
fn filled(card: &Card, rows: &[Vec<u8>]) -> (Tables, SavedRun) {
    let mut tables = Tables::new();
    let mut saved = card.load(&mut tables).unwrap();
    let turned: Vec<u8> = rows.iter().rev().flatten().copied().collect();
    assert_eq!(card.page(&mut tables, &mut saved, 0u16, &turned).unwrap().skipped, 0);
    (tables, saved)
}

#[test]
fn records_rise() {
    let (card, rows) = (card(), rows());
    let (tables, saved) = filled(&card, &rows);
    let page = card.publish(&tables, &saved, 0u16).unwrap();
    assert_eq!(page, rows.concat());
    let read: Vec<[Term; 3]> = records(&page).filter_map(terms).collect();
    assert_eq!(read.iter().map(|[s, p, o]| triple(s, p, o).unwrap()).collect::<Vec<_>>(), rows);
    // A graph that has no record, and one that is not fetched.
    let mut emptied = (tables.clone(), saved.clone());
    card.page(&mut emptied.0, &mut emptied.1, 1u16, &[]).unwrap();
    assert_eq!(card.publish(&emptied.0, &emptied.1, 1u16), Ok(Vec::new()));
    assert_eq!(card.publish(&tables, &saved, 1u16), Err(Refusal::NotFetched));
    assert_eq!(card.publish(&emptied.0, &emptied.1, 0u16), Ok(page));
}

/// Bytes that are no record: cut off, too long, of another kind, with a text or a number that no record has.
#[test]
fn what_is_no_record() {
    let good = row("u:a", "p:addr", Term::integer(1).unwrap());
    let changed = |at: usize, byte: u8| {
        let mut record = good.clone();
        record[at] = byte;
        record
    };
    let bad = [Vec::new(), good[..1].to_vec(), good[..good.len() - 1].to_vec(), [&good[..], &[0]].concat()];
    let more = [changed(0, 0x13), changed(0, 0x80), changed(0, 0x86), changed(1, b' '), changed(OBJECT_OFFSET - 1, 1)];
    let number = [changed(good.len() - 1, 0x7f)];
    for record in bad.iter().chain(&more).chain(&number) {
        assert_eq!(terms(record), None, "{record:x?}");
    }
    assert!(terms(&good).is_some());
}

#[test]
fn a_buffer_that_is_short_exact_or_longer() {
    let (card, rows) = (card(), rows());
    let (tables, saved) = filled(&card, &rows);
    let page = rows.concat();
    for room in [0, 1, page.len() - 1] {
        let mut buffer = vec![9; room];
        assert_eq!(card.publish_into(&tables, &saved, 0u16, &mut buffer), Err(Refusal::ShortBuffer));
        assert_eq!(buffer, vec![9; room]);
    }
    for more in [0, 1, PAGE_LIMIT] {
        let mut buffer = vec![9; page.len() + more];
        assert_eq!(card.publish_into(&tables, &saved, 0u16, &mut buffer), Ok(page.len()));
        assert_eq!(buffer, [page.clone(), vec![9; more]].concat());
    }
}

/// Refusals 1, 10, 22 and 23 in that order, and nothing is written.
#[test]
fn refusals() {
    let card = card();
    let (tables, saved) = filled(&card, &rows());
    let other = Card::new(&[uri("u:yard")], &[], success());
    let lent = TablesRef { ranks: &[], terms: tables.term_bytes(), quads: tables.quad_bytes() };
    let refused = |card: &Card, lent: TablesRef<'_>, saved: &[u8], graph: u64, report: usize| {
        let (mut page, mut report) = (vec![9; 20], vec![9; report]);
        let code = raw::publish(card, lent, saved, graph, &mut page, &mut report);
        assert!(page.iter().chain(&report).all(|byte| *byte == 9));
        code
    };
    let bytes = saved.as_bytes();
    for report in [0, PUBLISH_REPORT_WIDTH - 1, PUBLISH_REPORT_WIDTH + 1] {
        assert_eq!(refused(&other, lent, bytes, 1, report), 1);
    }
    let short = [TERM_TABLE_WIDTH, QUAD_TABLE_WIDTH, SAVED_WIDTH].map(|width| vec![0; width - 1]);
    assert_eq!(refused(&other, TablesRef { terms: &short[0], ..lent }, bytes, 1, PUBLISH_REPORT_WIDTH), 1);
    assert_eq!(refused(&other, TablesRef { quads: &short[1], ..lent }, bytes, 1, PUBLISH_REPORT_WIDTH), 1);
    assert_eq!(refused(&other, lent, &short[2], 1, PUBLISH_REPORT_WIDTH), 1);
    assert_eq!(refused(&other, lent, bytes, 1, PUBLISH_REPORT_WIDTH), 10);
    for graph in [1, 2, 500, 512, 1 << 16, 1 << 32, u64::MAX] {
        assert_eq!(refused(&card, lent, bytes, graph, PUBLISH_REPORT_WIDTH), 22, "{graph}");
    }
    assert_eq!(refused(&card, lent, bytes, 0, PUBLISH_REPORT_WIDTH), 23);
    assert_eq!(other.publish(&tables, &saved, 0u16), Err(Refusal::Unsound));
}

/// Ranks are not lent: with those that are none a page call is refused, and a publish call is not.
#[test]
fn without_ranks() {
    let (card, rows) = (card(), rows());
    let (tables, mut saved) = filled(&card, &rows);
    let mut tables = tables.with_ranks([0; 95]);
    assert_eq!(card.page(&mut tables, &mut saved, 0u16, &[]), Err(Refusal::Ranks));
    assert_eq!(card.publish(&tables, &saved, 0u16), Ok(rows.concat()));
}

/// What was published is taken in by the same station, which stays as it is, and by another, which then publishes the same bytes.
#[test]
fn taken_in_again_and_elsewhere() {
    let (card, rows) = (card(), rows());
    let (tables, saved) = filled(&card, &rows);
    let page = card.publish(&tables, &saved, 0u16).unwrap();
    let (mut again, mut run) = (tables.clone(), saved.clone());
    assert_eq!(card.page(&mut again, &mut run, 0u16, &page).unwrap().skipped, 0);
    assert_eq!((&again, &run), (&tables, &saved));

    let mut turned = schema();
    turned.reverse();
    let listed = [Term::integer(1).unwrap(), uri("u:b"), uri("u:yard")];
    let other = Card::new(&listed, &turned, from_named(con(2), success()));
    let mut others = Tables::new();
    let mut its_run = other.load(&mut others).unwrap();
    assert_eq!(other.page(&mut others, &mut its_run, 2u16, &page).unwrap().skipped, 0);
    assert_ne!(others.quad_bytes(), tables.quad_bytes());
    assert_eq!(other.publish(&others, &its_run, 2u16), Ok(page));
}

/// Texts as long as they may be, and as long as they might be before.
#[test]
fn long_texts() {
    for bytes in [40, 41, TEXT_WIDTH - 1, TEXT_WIDTH] {
        let text = |end: &str| format!("{end:->bytes$}");
        let (property, graph) = (uri(&text("p")), uri(&text("g")));
        let card = Card::new(&[graph], &[(property, Datatype::String)], success());
        let row = |subject: &str, name: &str| {
            triple(&uri(&text(subject)), &property, &Term::tagged("en-us", &text(name)).unwrap()).unwrap()
        };
        let rows = [row("s", "a"), row("s", "b"), row("t", "a")].to_vec();
        let (tables, saved) = filled(&card, &rows);
        let page = card.publish(&tables, &saved, 0u16).unwrap();
        assert_eq!(page, rows.concat(), "{bytes} bytes");
        assert_eq!(page.len(), 3 * LONGEST_RECORD);
    }
    assert_eq!((0x81..=0x85).filter_map(record_width).max(), Some(LONGEST_RECORD));
}

/// A full store in one graph, as no page call leaves it: more bytes than a page call takes.
#[test]
fn a_page_that_is_too_long_to_be_taken_in() {
    let card = card();
    let mut tables = Tables::new();
    let mut saved = card.load(&mut tables).unwrap();
    let rows = |graph: usize| {
        let row =
            move |n: usize| row(&format!("u:{graph}:{}", n / 16), "p:addr", Term::integer((n % 16) as i64).unwrap());
        (0..QUAD_LIMIT / 2).map(row)
    };
    for graph in [0, 1] {
        card.page(&mut tables, &mut saved, graph as u64, &rows(graph).collect::<Vec<_>>().concat()).unwrap();
    }
    let mut quads: Vec<[u16; 4]> =
        tables.quads(&saved).map(|quad| [0, quad.subject, quad.property, quad.object]).collect();
    quads.sort_unstable();
    let bytes: Vec<u8> = quads.iter().flatten().flat_map(|number| number.to_le_bytes()).collect();
    let terms = Box::new(*tables.term_bytes());
    let mut tables = Tables::from_bytes(terms, Box::new(bytes.try_into().unwrap()));
    let page = card.publish(&tables, &saved, 0u16).unwrap();
    let mut expected: Vec<Vec<u8>> = rows(0).chain(rows(1)).collect();
    expected.sort_unstable();
    assert_eq!(page, expected.concat());
    assert!(page.len() > PAGE_LIMIT);
    assert_eq!(card.page(&mut tables, &mut saved, 0u16, &page), Err(Refusal::Page));
}
