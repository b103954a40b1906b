//! A schema out of a page, through the safe interface: each rule and each refusal with a page that meets it, lengths, and a card that stands on
//! what was gathered.

use willetcoffer::limits::{ENTRY_LIMIT, ENTRY_WIDTH, PAGE_LIMIT, SCHEMA_REPORT_WIDTH, SCHEMA_WIDTH, TEXT_WIDTH};
use willetcoffer::page::triple;
use willetcoffer::raw;
use willetcoffer::script::*;
use willetcoffer::Datatype::{self, AnyUri, DateTime, Decimal, Integer};
use willetcoffer::{schema_of_page, Card, GatheredSchema, Refusal, State, Tables, Term};

const RANGE: &str = "rdfs:range";

fn uri(text: &str) -> Term {
    Term::uri(text).unwrap()
}

fn record(subject: &str, property: &str, object: Term) -> Vec<u8> {
    triple(&uri(subject), &uri(property), &object).unwrap()
}

fn page(records: &[[&str; 3]]) -> Vec<u8> {
    records.iter().flat_map(|[subject, property, object]| record(subject, property, uri(object))).collect()
}

/// So many subjects, each with the range xsd:integer.
fn many(count: usize) -> Vec<u8> {
    (0..count).flat_map(|n| record(&format!("p:{n}"), RANGE, uri("xsd:integer"))).collect()
}

/// The entries with their properties' texts, and the count of those left out.
fn gathered(page: &[u8]) -> Result<(Vec<(String, Datatype)>, u32), Refusal> {
    let GatheredSchema { records, left_out } = schema_of_page(page)?;
    let gathered = GatheredSchema { records, left_out };
    let entries: Vec<_> = gathered.entries().map(|(property, datatype)| (property.to_string(), datatype)).collect();
    assert_eq!(entries.len() * ENTRY_WIDTH, gathered.records.len());
    Ok((entries, left_out))
}

fn expected(entries: &[(&str, Datatype)], left_out: u32) -> Result<(Vec<(String, Datatype)>, u32), Refusal> {
    Ok((entries.iter().map(|(text, datatype)| (text.to_string(), *datatype)).collect(), left_out))
}

#[test]
fn rows() {
    for (name, datatype) in Datatype::ALL.map(|datatype| (datatype.to_string(), datatype)) {
        assert_eq!(gathered(&page(&[["p:a", RANGE, &name]])), expected(&[("p:a", datatype)], 0), "{name}");
    }
    for other in ["c:Locomotive", "xsd:Decimal", "xsd:decima", "xsd:decimals", "xsd:int", "rdfs:range"] {
        assert_eq!(gathered(&page(&[["p:a", RANGE, other]])), expected(&[("p:a", AnyUri)], 0), "{other}");
    }
    let object = ["p:a", "rdf:type", "owl:ObjectProperty"];
    assert_eq!(gathered(&page(&[object])), expected(&[("p:a", AnyUri)], 0));
    for [property, object] in [
        ["rdf:type", "owl:objectProperty"],
        ["rdf:type", "rdf:Property"],
        ["rdf:type", "xsd:decimal"],
        ["rdfs:Range", "xsd:decimal"],
        ["rdfs:domain", "xsd:decimal"],
    ] {
        assert_eq!(gathered(&page(&[["p:a", property, object]])), expected(&[], 0), "{property} {object}");
    }
    let [integer, decimal] = ["xsd:integer", "xsd:decimal"].map(|name| ["p:a", RANGE, name]);
    for two in [[integer, decimal], [decimal, integer]] {
        assert_eq!(gathered(&page(&two)), expected(&[("p:a", Decimal)], 0));
    }
    assert_eq!(gathered(&page(&[object, integer])), expected(&[], 1));
    assert_eq!(gathered(&page(&[integer, ["p:a", RANGE, "xsd:string"], integer, object])), expected(&[], 1));
    assert_eq!(gathered(&[]), expected(&[], 0));
}

/// Objects that are no URIs ask nothing, whatever they say.
#[test]
fn objects_that_are_no_uris() {
    for object in [
        Term::string("xsd:decimal").unwrap(),
        Term::tagged("en", "xsd:decimal").unwrap(),
        Term::integer(3).unwrap(),
        Term::decimal(3).unwrap(),
        Term::date_time(3).unwrap(),
    ] {
        let page = [record("p:a", RANGE, object), record("p:b", RANGE, uri("xsd:dateTime"))].concat();
        assert_eq!(gathered(&page), expected(&[("p:b", DateTime)], 0), "{object:?}");
    }
}

/// In the order of first asking records; texts of 96 bytes are told apart at their last one, and are no word that they begin with.
#[test]
fn order_and_long_texts() {
    let [one, other] = ["a", "b"].map(|end| format!("{end:->TEXT_WIDTH$}"));
    let long = |word: &str| format!("{word:x<TEXT_WIDTH$}");
    let records = [
        [other.as_str(), "rdf:type", "rdf:Property"],
        [&one, RANGE, &long("xsd:integer")],
        [&other, RANGE, "xsd:integer"],
        ["p:a", &long(RANGE), "xsd:integer"],
        ["p:b", "rdf:type", &long("owl:ObjectProperty")],
    ];
    assert_eq!(gathered(&page(&records)), expected(&[(&one, AnyUri), (&other, Integer)], 0));
}

/// 13, then 19: a page over its limit or with a bad record, and more entries than a schema has.
#[test]
fn refusals_of_pages() {
    assert_eq!(gathered(&many(ENTRY_LIMIT)).map(|(entries, left_out)| (entries.len(), left_out)), Ok((ENTRY_LIMIT, 0)));
    assert_eq!(gathered(&many(ENTRY_LIMIT + 1)), Err(Refusal::TooManyEntries));
    let one_less = [many(ENTRY_LIMIT + 1), record("p:7", RANGE, uri("xsd:string"))].concat();
    assert_eq!(gathered(&one_less).map(|(entries, left_out)| (entries.len(), left_out)), Ok((ENTRY_LIMIT, 1)));
    assert_eq!(gathered(&[0x81]), Err(Refusal::Page));
    assert_eq!(gathered(&[many(ENTRY_LIMIT + 1), vec![0x81]].concat()), Err(Refusal::Page));
    let long = many(PAGE_LIMIT / 289 + 1);
    assert!(long.len() > PAGE_LIMIT);
    assert_eq!(gathered(&long), Err(Refusal::Page));
}

/// Buffers of another length meet 1, before 13 and 19; on each refusal both keep their bytes, and after the entries the schema does.
#[test]
fn bytes_of_the_call() {
    let good = page(&[["p:a", RANGE, "xsd:dateTime"], ["p:b", RANGE, "xsd:string"], ["p:b", RANGE, "c:X"]]);
    let called = |page: &[u8], schema: usize, report: usize| {
        let (mut entries, mut told) = (vec![9; schema], vec![9; report]);
        (raw::schema(page, &mut entries, &mut told), entries, told)
    };
    for (schema, report) in [
        (0, SCHEMA_REPORT_WIDTH),
        (SCHEMA_WIDTH - 1, SCHEMA_REPORT_WIDTH),
        (SCHEMA_WIDTH + 1, SCHEMA_REPORT_WIDTH),
        (5376, SCHEMA_REPORT_WIDTH),
        (SCHEMA_WIDTH, 0),
        (SCHEMA_WIDTH, SCHEMA_REPORT_WIDTH - 1),
        (SCHEMA_WIDTH, SCHEMA_REPORT_WIDTH + 1),
    ] {
        for page in [&good, &vec![0x81], &many(ENTRY_LIMIT + 1)] {
            assert_eq!(called(page, schema, report), (1, vec![9; schema], vec![9; report]));
        }
    }
    for (page, number) in [(vec![0x81], 13), (many(ENTRY_LIMIT + 1), 19)] {
        let kept = (number, vec![9; SCHEMA_WIDTH], vec![9; SCHEMA_REPORT_WIDTH]);
        assert_eq!(called(&page, SCHEMA_WIDTH, SCHEMA_REPORT_WIDTH), kept);
    }
    let (code, schema, report) = called(&good, SCHEMA_WIDTH, SCHEMA_REPORT_WIDTH);
    assert_eq!((code, report), (0, vec![1, 0, 0, 0, 1, 0, 0, 0]));
    let entry = [&[0x21][..], b"p:a", &[0; TEXT_WIDTH - 3], &[4]].concat();
    assert_eq!(schema, [entry, vec![9; SCHEMA_WIDTH - ENTRY_WIDTH]].concat());
}

/// From a page's ranges to a run: the gathered schema stands on a card, and pages are taken in by it.
#[test]
fn on_a_card() {
    let [yard, speed] = ["u:yard", "p:speed"].map(uri);
    let ranges =
        page(&[["p:speed", RANGE, "xsd:integer"], ["p:home", RANGE, "c:Yard"], ["p:speed", RANGE, "xsd:decimal"]]);
    let fast = pattern([con(0), con(0), con(1), var(0)]);
    let script = from_named(con(0), once(&[(0, None)], fast, success()));
    let card = Card { schema: schema_of_page(&ranges).unwrap().records, ..Card::new(&[yard], &[], script) };
    let mut tables = Tables::new();
    let mut saved = card.load(&mut tables).unwrap();
    assert_eq!(saved.variable_type(0).map(|found| found.to_string()).as_deref(), Some("xsd:decimal"));
    let home = uri("p:home");
    let rows = [(speed, Term::integer(126).unwrap(), 0), (home, yard, 0), (home, Term::string("x").unwrap(), 1)];
    for (property, object, skipped) in rows {
        let page = triple(&yard, &property, &object).unwrap();
        assert_eq!(card.page(&mut tables, &mut saved, 0u16, &page).map(|report| report.skipped), Ok(skipped));
    }
    let page = triple(&yard, &speed, &Term::integer(126).unwrap()).unwrap();
    card.page(&mut tables, &mut saved, 0u16, &page).unwrap();
    assert_eq!(card.run(&tables, &mut saved, 9, 0).map(|report| report.state), Ok(State::Ended));
}
