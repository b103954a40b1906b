//! Records as text, and the text as records again: the same, byte for byte, in every form that is written; and rapper reads it too.

use rdf::{page, published, read, written, Format, Unwritable};
use std::io::Write;
use std::process::{Command, Stdio};
use terms::{date_time, Prefixes};
use willetcoffer::limits::TEXT_WIDTH;
use willetcoffer::page::{records, triple};
use willetcoffer::Term;

const GRAPH: &str = "http://club.example/yard";
const FORMS: [Format; 2] = [Format::Turtle, Format::NTriples];

fn prefixes() -> Prefixes {
    let mut prefixes = Prefixes::default();
    prefixes.add("p", "http://p.example/").expect("a prefix");
    prefixes.add("club", "http://club.example/").expect("a prefix");
    prefixes
}

fn uri(text: &str) -> Term {
    Term::uri(text).expect("a URI")
}

fn row(subject: &str, property: &str, object: Term) -> Vec<u8> {
    triple(&uri(subject), &uri(property), &object).expect("a record")
}

/// The records in rising order, as an engine publishes them.
fn rising(rows: &[Vec<u8>]) -> Vec<u8> {
    let mut rows = rows.to_vec();
    rows.sort_unstable();
    rows.concat()
}

/// The page's text in this form, of which nothing is left out.
fn text(bytes: &[u8], format: Format, prefixes: &Prefixes) -> String {
    let published = published(bytes, prefixes);
    assert_eq!(published.left_out, []);
    written(&published.triples, format, prefixes).expect("a form that is written")
}

/// The records of a text, rising.
fn taken(text: &str, format: Format, prefixes: &Prefixes) -> Vec<u8> {
    let document = read(text.as_bytes(), format, GRAPH).unwrap_or_else(|error| panic!("{error}\n{text}"));
    let page = page(&document, GRAPH, prefixes);
    assert_eq!((page.left_out, page.warnings), (Vec::new(), Vec::<String>::new()), "{text}");
    rising(&records(&page.bytes).map(<[u8]>::to_vec).collect::<Vec<_>>())
}

fn all_kinds() -> Vec<Vec<u8>> {
    let string = |text| Term::string(text).expect("a string");
    let tagged = |tag, text| Term::tagged(tag, text).expect("a string");
    let decimal = |n| Term::decimal(n).expect("a decimal");
    let integer = |n| Term::integer(n).expect("an integer");
    let time = |text| date_time(text).expect("a dateTime");
    vec![
        row("club:loco/1", "p:likes", uri("club:yard")),
        row("club:loco_1", "p:likes", uri("p:")),
        row("http://other.example/?a=b&c#d", "p:a.b", uri("urn:x:~'()*,;@!$%5B")),
        // No IRIs but by their datatype: without a scheme, or with characters that none has.
        row("club:loco/1", "p:likes", uri("yard")),
        row("club:loco/1", "p:likes", uri("http://a/<b>\"\\{}|^`")),
        row("club:loco/1", "p:name", string("")),
        row("club:loco/1", "p:name", string(" a \"b\" \\ c\\n 'd' # ~ ")),
        row("club:loco/1", "p:name", string("@en")),
        row("club:loco/1", "p:name", tagged("en", "Mallard")),
        row("club:loco/1", "p:name", tagged("de-at", "Stockente")),
        row("club:loco/1", "p:addr", integer(0)),
        row("club:loco/1", "p:addr", integer(-1_000_000_000_000)),
        row("club:loco/1", "p:speed", integer(3)),
        row("club:loco/1", "p:speed", decimal(3_000_000)),
        row("club:loco/1", "p:speed", decimal(-500_000)),
        row("club:loco/1", "p:speed", decimal(1)),
        row("club:loco/1", "p:speed", decimal(-1_000_000_000_000_000_000)),
        row("club:loco/1", "p:built", time("0001-01-01T00:00:00Z")),
        row("club:loco/1", "p:built", time("2000-02-29T23:59:59Z")),
        row("club:loco/1", "p:built", time("9999-12-31T23:59:59Z")),
    ]
}

#[test]
fn all_kinds_come_back() {
    let bytes = rising(&all_kinds());
    for prefixes in [prefixes(), Prefixes::default()] {
        for format in FORMS {
            // Without prefixes `club:yard` is an IRI of its own.
            let text = text(&bytes, format, &prefixes);
            assert_eq!(taken(&text, format, &prefixes), bytes, "{text}");
            assert!(text.lines().count() >= all_kinds().len());
        }
    }
}

#[test]
fn as_it_is_written() {
    let bytes = rising(&[
        row("club:yard", "p:likes", uri("club:loco/1")),
        row("club:yard", "p:name", Term::tagged("en", "Yard \"1\"").expect("a string")),
        row("club:yard", "p:addr", Term::integer(3).expect("an integer")),
        row("club:yard", "p:speed", Term::decimal(65_000_000).expect("a decimal")),
        row("club:yard", "p:closes", date_time("2026-12-31T00:00:00Z").expect("a dateTime")),
    ]);
    let turtle = "@prefix p: <http://p.example/> .\n@prefix club: <http://club.example/> .\n\n\
        club:yard p:likes <http://club.example/loco/1> .\n\
        club:yard p:name \"Yard \\\"1\\\"\"@en .\n\
        club:yard p:addr 3 .\n\
        club:yard p:speed 65.0 .\n\
        club:yard p:closes \"2026-12-31T00:00:00Z\"^^<http://www.w3.org/2001/XMLSchema#dateTime> .\n";
    assert_eq!(text(&bytes, Format::Turtle, &prefixes()), turtle);
    let first = "<http://club.example/yard> <http://p.example/likes> <http://club.example/loco/1> .\n";
    assert!(text(&bytes, Format::NTriples, &prefixes()).starts_with(first));
    assert_eq!(text(&[], Format::NTriples, &prefixes()), "");
    assert_eq!(taken(&text(&[], Format::Turtle, &prefixes()), Format::Turtle, &prefixes()), []);
    for format in [Format::NQuads, Format::RdfXml, Format::Rdfa] {
        assert_eq!(written(&[], format, &prefixes()), None);
    }
}

/// Texts as long as they may be.
#[test]
fn long_texts_come_back() {
    for bytes in [40, 41, TEXT_WIDTH - 1, TEXT_WIDTH] {
        let address = |end: &str| format!("http://club.example/{end:->width$}", width = bytes - 20);
        let name = Term::tagged("en-gb", &format!("{:->bytes$}", "\"")).expect("a string");
        let rows = [row(&address("a"), &address("p"), name), row(&address("a"), &address("p"), uri(&address("b")))];
        for format in FORMS {
            let text = text(&rising(&rows), format, &Prefixes::default());
            assert_eq!(taken(&text, format, &Prefixes::default()), rising(&rows), "{bytes} bytes");
        }
    }
}

/// A blank node is one again; its number is that of the order in which it is met.
#[test]
fn blank_nodes() {
    let rows = [
        row("_:12@club:yard", "p:works", uri("_:7@club:yard")),
        row("_:7@club:yard", "p:name", Term::string("Forth Street").expect("a string")),
    ];
    for format in FORMS {
        let text = text(&rising(&rows), format, &prefixes());
        assert!(text.contains("_:b12 ") && text.contains(" _:b7 ."), "{text}");
        let again = [
            row("_:1@club:yard", "p:works", uri("_:2@club:yard")),
            row("_:2@club:yard", "p:name", Term::string("Forth Street").expect("a string")),
        ];
        assert_eq!(taken(&text, format, &prefixes()), rising(&again));
    }
}

#[test]
fn what_is_left_out() {
    let name = || Term::string("a").expect("a string");
    let rows = [
        (row("yard", "p:name", name()), Unwritable::Iri("subject")),
        (row("http://a/{b}", "p:name", name()), Unwritable::Iri("subject")),
        (row("_:x@club:yard", "p:name", name()), Unwritable::Iri("subject")),
        (row("club:yard", "name", name()), Unwritable::Iri("property")),
        (row("club:yard", "_:1@club:yard", name()), Unwritable::Iri("property")),
        (row("club:yard", "p:name", Term::tagged("-", "a").expect("a string")), Unwritable::Tag("-".to_owned())),
        (row("club:yard", "p:name", Term::tagged("en-", "a").expect("a string")), Unwritable::Tag("en-".to_owned())),
        (vec![0x81], Unwritable::Record),
    ];
    for (record, why) in rows {
        let published = published(&record, &prefixes());
        assert_eq!(published.triples, []);
        assert_eq!(published.left_out.into_iter().map(|left| left.why).collect::<Vec<_>>(), [why]);
    }
    let left = published(&row("yard", "p:name", name()), &prefixes()).left_out;
    assert_eq!(left[0].to_string(), "yard p:name a\n    the subject is no absolute IRI");
}

/// rapper reads as many triples as there are records.
#[test]
fn rapper_reads_it() {
    let bytes = rising(&all_kinds());
    for format in FORMS {
        let mut command = Command::new("rapper");
        command.args(["-q", "-i", format.name(), "-o", "ntriples", "-", GRAPH]);
        let mut rapper = command.stdin(Stdio::piped()).stdout(Stdio::piped()).stderr(Stdio::piped()).spawn();
        let rapper = rapper.as_mut().expect("rapper runs (Debian: raptor2-utils)");
        let text = text(&bytes, format, &prefixes());
        rapper.stdin.take().expect("its input").write_all(text.as_bytes()).expect("a text");
        let mut lines = String::new();
        std::io::Read::read_to_string(&mut rapper.stdout.take().expect("its output"), &mut lines).expect("lines");
        assert!(rapper.wait().expect("its end").success(), "{text}");
        assert_eq!(lines.lines().count(), all_kinds().len(), "{lines}");
    }
}
