//! A schema out of a page: what is printed is the beginning of a script, and what is left out is told with its reason.

mod common;

use common::Folder;
use willetcoffer::limits::{ENTRY_LIMIT, PAGE_LIMIT};

const PREFIXES: &str = "@prefix rdf: <http://www.w3.org/1999/02/22-rdf-syntax-ns#> .
@prefix r: <http://www.w3.org/2000/01/rdf-schema#> .
@prefix owl: <http://www.w3.org/2002/07/owl#> .
@prefix x: <http://www.w3.org/2001/XMLSchema#> .
@prefix p: <http://p.example/> .
";

/// The ranges of a club, under names that are the page's own.
const RANGES: &str = "p:speed r:range x:integer .
p:name a rdf:Property ; r:label \"name\"@en ; r:range x:string .
p:home a owl:ObjectProperty .
p:speed r:range x:decimal .
p:built r:range x:dateTime , x:string ; a owl:ObjectProperty .
p:class r:range p:Class .
p:story r:range \"xsd:string\" .
";

const LEGEND: &str = "prefix p: <http://p.example/>\n";

fn folder(ranges: &str) -> Folder {
    let folder = Folder::new();
    folder.write("ranges.ttl", format!("{PREFIXES}{ranges}"));
    folder.write("p.legend", LEGEND);
    folder
}

const GATHERED: &str = "prefix p: <http://p.example/>
schema p:speed xsd:decimal, p:name xsd:string, p:home xsd:anyURI, p:class xsd:anyURI
";

#[test]
fn as_text() {
    let folder = folder(RANGES);
    let said = folder.willet(&["schema", "ranges.ttl", "--legend", "p.legend"]);
    assert_eq!((said.code, said.out.as_str()), (Some(0), GATHERED), "{}", said.err);
    let lines: Vec<&str> = said.err.lines().collect();
    assert_eq!(lines[0], "left out: p:built");
    assert!(lines[1].starts_with("    no datatype meets all of rdfs:range xsd:"), "{}", said.err);
    for asked in ["rdfs:range xsd:dateTime", "rdfs:range xsd:string", "rdf:type owl:ObjectProperty"] {
        assert!(lines[1].contains(asked), "{}", said.err);
    }
    assert_eq!(lines[2..], ["ranges.ttl: 4 entries, 1 left out"]);
    let said = folder.willet(&["schema", "ranges.ttl", "--legend", "p.legend", "-o", "schema.page"]);
    assert_eq!((said.code, said.out.as_str()), (Some(0), ""));
    assert_eq!(std::fs::read_to_string(folder.path("schema.page")).expect("a schema"), GATHERED);
}

/// The text is the beginning of a script, and a legend for the club's other pages.
#[test]
fn a_script_stands_on_it() {
    let folder = folder(RANGES);
    folder.willet(&["schema", "ranges.ttl", "--legend", "p.legend", "-o", "schema.page"]);
    assert_eq!(folder.willet(&["check", "schema.page"]).out, "schema.page: accepted\n");
    let script = "from named <u:yard>\ndo select $loco, $v where graph <u:yard> { $loco p:speed $v }  100 < $v\n";
    folder.write("yard.page", format!("{GATHERED}{script}"));
    folder.write("pages/yard.ttl", format!("{PREFIXES}p:mallard p:speed 126.4 . p:billy p:speed 5 ."));
    let said = folder.willet(&["check", "yard.page"]);
    assert_eq!(said.out, "yard.page: accepted\n  $loco  xsd:anyURI\n  $v     xsd:decimal\n", "{}", said.err);
    let said = folder.willet(&["page", "pages/yard.ttl", "-o", "yard.records", "--legend", "schema.page"]);
    assert_eq!(said.out, "pages/yard.ttl: 2 records, 0 left out\n", "{}", said.err);
}

/// Without a legend IRIs stand in full; a property of the vocabularies themselves brings its prefix.
#[test]
fn without_a_legend() {
    let folder = folder("p:name r:range x:string . r:label r:range r:Literal .\n");
    let said = folder.willet(&["schema", "ranges.ttl"]);
    let expected = "prefix rdfs: <http://www.w3.org/2000/01/rdf-schema#>\n\
                    schema <http://p.example/name> xsd:string, rdfs:label xsd:anyURI\n";
    assert_eq!((said.code, said.out.as_str()), (Some(0), expected), "{}", said.err);
    folder.write("again.page", &said.out);
    assert_eq!(folder.willet(&["check", "again.page"]).code, Some(0));
}

/// A page that asks nothing has no schema.
#[test]
fn nothing_is_asked() {
    let said = folder("p:name a rdf:Property .\n").willet(&["schema", "ranges.ttl"]);
    assert_eq!((said.code, said.out.as_str()), (Some(0), ""));
    assert_eq!(said.err, "ranges.ttl: 0 entries, 0 left out\n");
}

/// So many properties with a range.
fn many(count: usize) -> String {
    (0..count).map(|n| format!("p:p{n} r:range x:integer .\n")).collect()
}

#[test]
fn too_many() {
    let said = folder(&many(ENTRY_LIMIT)).willet(&["schema", "ranges.ttl", "--legend", "p.legend"]);
    assert_eq!((said.code, said.err.as_str()), (Some(0), "ranges.ttl: 128 entries, 0 left out\n"));
    let said = folder(&many(ENTRY_LIMIT + 1)).willet(&["schema", "ranges.ttl", "--legend", "p.legend"]);
    assert_eq!((said.code, said.out.as_str()), (Some(1), ""));
    let expected = "error[19]: ranges.ttl: more than 128 subjects of the page would get a schema entry";
    assert!(said.err.starts_with(expected) && said.err.contains("on several pages"), "{}", said.err);
    let said = folder(&many(PAGE_LIMIT / 289 + 1)).willet(&["schema", "ranges.ttl", "--legend", "p.legend"]);
    assert_eq!(said.code, Some(1));
    assert!(said.err.starts_with("error[13]: ranges.ttl: 65603 bytes of records, 67 more than 65536"), "{}", said.err);
}

/// Prefixes under which the engine would not find the words.
#[test]
fn prefixes_that_hide_the_words() {
    let rows = [
        (
            "rdfs",
            "http://else.example/",
            "error: rdfs: stands for another IRI than <http://www.w3.org/2000/01/rdf-schema#>",
        ),
        (
            "x",
            "http://www.w3.org/2001/XMLSchema#",
            "error: x: stands for <http://www.w3.org/2001/XMLSchema#>, which the engine knows as xsd:",
        ),
        (
            "o",
            "http://www.w3.org/2002/07/owl#Object",
            "error: the legend's prefixes make o:Property of <http://www.w3.org/2002/07/owl#ObjectProperty>",
        ),
    ];
    for (name, iri, expected) in rows {
        let folder = folder(RANGES);
        folder.write("p.legend", format!("prefix {name}: <{iri}>\n"));
        let said = folder.willet(&["schema", "ranges.ttl", "--legend", "p.legend"]);
        assert_eq!((said.code, said.out.as_str()), (Some(1), ""), "{name}");
        assert!(said.err.starts_with(expected) && said.err.contains("help: "), "{}", said.err);
    }
}
