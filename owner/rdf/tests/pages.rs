//! Pages: what becomes of each triple, and what is said of those that are no records.

use rdf::{page, read, Format, Page};
use terms::{literal, Prefixes};
use willetcoffer::limits::TEXT_WIDTH;

fn prefixes() -> Prefixes {
    let mut prefixes = Prefixes::default();
    prefixes.add("p", "http://p.example/").expect("a prefix");
    prefixes.add("club", "http://club.example/").expect("a prefix");
    prefixes
}

fn converted(text: &str, format: Format, graph: &str) -> Page {
    let document = read(text.as_bytes(), format, graph).expect("a good text");
    page(&document, graph, &prefixes())
}

fn taken(page: &Page) -> Vec<String> {
    let row = |terms: &[willetcoffer::Term; 3]| terms.map(|term| literal(&term, &prefixes())).join(" ");
    page.taken.iter().map(row).collect()
}

fn reasons(page: &Page) -> Vec<String> {
    page.left_out.iter().map(|left| left.reason.to_string()).collect()
}

#[test]
fn a_turtle_page() {
    let page = converted(include_str!("data/yard.ttl"), Format::Turtle, "http://club.example/yard");
    let records = [
        "club:yard p:closes 2026-12-31T00:00:00Z",
        "club:yard p:home club:home",
        "club:loco/1 p:name \"Mallard\"@en",
        "club:loco/1 p:name \"Stockente\"@de-at",
        "club:loco/1 p:speed 126.4",
        "club:loco/1 p:addr 3",
        "club:loco/2 p:name \"Puffing Billy\"@en-gb",
        "club:loco/2 p:speed 5",
        "club:loco/2 p:weight 8.25",
        "club:loco/2 p:cost 0.5",
        "club:loco/3 p:name \"Crampton \\\"Le Continent\\\"\"",
        "<_:1@club:yard> p:name \"Stephenson\"",
        "<_:1@club:yard> p:works <_:2@club:yard>",
        "club:loco/5 p:builder <_:1@club:yard>",
        "<_:2@club:yard> p:name \"Forth Street\"",
    ];
    assert_eq!(taken(&page), records);
    let story = "A text that is longer than the field of a record, as stories of locomotives and of those who build and drive them are";
    let path = "club:a-very-long-path/of-more-bytes-than-a-record-has-room-for/whatever-prefix-it-is-shortened-by/and-then/some-more";
    let long_text = format!("the text is {} bytes longer than the {TEXT_WIDTH} of a record", story.len() - TEXT_WIDTH);
    let over = path.len() - TEXT_WIDTH;
    let long_iri = format!("the object: {} bytes, {over} more than the {TEXT_WIDTH} of a record: {path}", path.len());
    let left_out = [
        "a dateTime needs its time zone: Z for UTC, or an offset such as +01:00",
        "no term has the datatype <http://www.w3.org/2001/XMLSchema#date>",
        "no term has the datatype <http://www.w3.org/2001/XMLSchema#boolean>",
        "a decimal has at most 6 digits after the point",
        "an integer has neither point nor exponent",
        "an integer is at most 1000000000000 either way",
        "the character 'é' is in no text of a record",
        &long_text,
        "the language tag is 2 bytes longer than the 8 of a record",
        "the language tag es-419 has other characters than letters and hyphens",
        &long_iri,
    ];
    assert_eq!(reasons(&page), left_out);
}

#[test]
fn quads_of_other_graphs_are_left_out() {
    let page = converted(include_str!("data/graphs.nq"), Format::NQuads, "http://club.example/yard");
    assert_eq!(taken(&page), ["club:loco/1 p:name \"Mallard\"@en", "club:loco/1 p:addr 3"]);
    assert_eq!(reasons(&page), ["it belongs to another graph, <http://club.example/shed>"]);
}

#[test]
fn one_stock_in_three_forms() {
    let expected = ["club:loco/1 p:name \"Mallard\"@en", "club:loco/1 p:speed 126.4", "club:loco/1 p:yard club:yard"];
    let xml = converted(include_str!("data/stock.rdf"), Format::RdfXml, "http://club.example/yard");
    assert_eq!(taken(&xml), expected);
    let html = converted(include_str!("data/stock.html"), Format::Rdfa, "http://club.example/yard");
    let mut rows = taken(&html);
    rows.sort();
    assert_eq!(rows, expected);
}

#[test]
fn a_page_keeps_its_bytes() {
    let text = "<http://club.example/loco/1> <http://p.example/addr> 3 .";
    let page = converted(text, Format::Turtle, "http://club.example/yard");
    assert_eq!((page.bytes[0], page.bytes.len()), (0x83, 1 + 2 * TEXT_WIDTH + 8));
    let (property, object) = (1 + TEXT_WIDTH, 1 + 2 * TEXT_WIDTH);
    assert_eq!(&page.bytes[1..13], b"club:loco/1\0");
    assert_eq!(&page.bytes[property..property + 7], b"p:addr\0");
    assert_eq!(page.bytes[object..], 3i64.to_le_bytes());
}

#[test]
fn a_text_that_is_no_turtle_is_no_page() {
    let error = read(b"@prefix p: <http://p.example/> .\n<a> p:b\n", Format::Turtle, "http://club.example/")
        .expect_err("cut off");
    assert!(error.line.is_some(), "{error}");
    assert!(error.to_string().starts_with("line "), "{error}");
}

#[test]
fn numbers_of_every_datatype_by_value() {
    let rows = [
        ("\"7\"^^xsd:unsignedByte", Some("7")),
        ("\"+7\"^^xsd:long", Some("7")),
        ("\"-0\"^^xsd:int", Some("0")),
        ("\"7.\"^^xsd:decimal", Some("7.0")),
        ("\"-.5\"^^xsd:decimal", Some("-0.5")),
        ("\" 7 \"^^xsd:decimal", Some("7.0")),
        ("\"1e12\"^^xsd:double", Some("1000000000000.0")),
        ("\"INF\"^^xsd:double", None),
        ("\"NaN\"^^xsd:float", None),
        ("\"1e999\"^^xsd:double", None),
    ];
    for (object, expected) in rows {
        let text = format!("@prefix xsd: <http://www.w3.org/2001/XMLSchema#> . <http://club.example/a> <http://p.example/n> {object} .");
        let page = converted(&text, Format::Turtle, "http://club.example/yard");
        let row = expected.map(|value| format!("club:a p:n {value}"));
        assert_eq!(taken(&page).first().cloned(), row, "{object}");
        assert_eq!(page.left_out.len(), usize::from(expected.is_none()), "{object}");
    }
}
