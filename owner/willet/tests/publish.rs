//! `willet publish`: what a run has fetched, as a page for others.

mod common;

use common::{examples, Folder};
use willetcoffer::limits::TEXT_WIDTH;
use willetcoffer::page::{record_width, records};

const NOON: [&str; 2] = ["--now", "2026-03-01T12:00:00Z"];

/// The season's folder, its first pages in `pages`, its later ones in `later`.
fn season() -> Folder {
    let folder = Folder::new();
    for name in ["yard.page", "pages/yard.ttl", "later/yard.ttl"] {
        folder.copy(&examples().join("season").join(name), name);
    }
    folder
}

fn publish(folder: &Folder, from: &str, output: &str) -> String {
    let said = folder.willet(&[&["publish", "yard.page", "--from", from, "-q", "-o", output], &NOON[..]].concat());
    assert_eq!((said.code, said.err.as_str()), (Some(0), ""));
    said.out
}

#[test]
fn the_season_as_turtle() {
    let folder = season();
    let said = folder.willet(&[&["publish", "yard.page", "--from", "later", "-o", "yard.ttl"], &NOON[..]].concat());
    assert_eq!(
        (said.code, said.out.as_str()),
        (Some(0), "yard.ttl: http://club.example/yard, 3 records, 0 left out\n")
    );
    let told = "wants http://club.example/yard\npage  http://club.example/yard: 3 records, 0 skipped, 3 quads stored\n\
        ended after 7 steps\n";
    assert_eq!(said.err, told);
    let text = std::fs::read_to_string(folder.path("yard.ttl")).expect("a text");
    let expected = "@prefix p: <http://p.example/> .\n@prefix club: <http://club.example/> .\n\n\
        <http://club.example/loco/1> p:name \"Mallard\"@en .\n\
        <http://club.example/loco/1> p:speed 126.4 .\n\
        club:yard p:closes \"2026-12-31T00:00:00Z\"^^<http://www.w3.org/2001/XMLSchema#dateTime> .\n";
    assert_eq!(text, expected);
}

/// A run over what was published takes all of it in, and publishes the same; in each form. The first page has a record that is skipped, and one
/// that is none: neither is published.
#[test]
fn published_again() {
    for form in ["ttl", "nt"] {
        let folder = season();
        let said = publish(&folder, "pages", "first.records");
        assert_eq!(said, "first.records: http://club.example/yard, 9 records, 0 left out\n");
        publish(&folder, "pages", &format!("out.{form}"));
        std::fs::create_dir(folder.path("again")).expect("a folder");
        folder.copy(&folder.path(&format!("out.{form}")), &format!("again/yard.{form}"));
        let run = folder.willet(&[&["run", "yard.page", "--from", "again"], &NOON[..]].concat());
        assert!(run.err.contains("9 records, 0 skipped, 9 quads stored"), "{}", run.err);
        publish(&folder, "again", "again.records");
        let [first, again] =
            ["first.records", "again.records"].map(|name| std::fs::read(folder.path(name)).expect("records"));
        assert_eq!(first, again);
        assert!(records(&first).is_sorted() && records(&first).count() == 9);
        // The page command makes the same records of it, in the order of the text.
        let args = ["page", &format!("out.{form}"), "-o", "page.records", "--graph", "http://club.example/yard"];
        assert_eq!(folder.willet(&[&args[..], &["--legend", "yard.page"]].concat()).code, Some(0));
        assert_eq!(std::fs::read(folder.path("page.records")).expect("records"), first);
    }
}

/// A card, with its legend beside it and without.
#[test]
fn from_a_card() {
    let folder = season();
    publish(&folder, "later", "text.ttl");
    assert_eq!(folder.willet(&["card", "yard.page", "-o", "yard.card"]).code, Some(0));
    let args = ["publish", "yard.card", "--from", "later", "-q", "-o", "card.ttl"];
    assert_eq!(folder.willet(&[&args[..], &NOON].concat()).code, Some(0));
    let [text, card] = ["text.ttl", "card.ttl"].map(|name| std::fs::read_to_string(folder.path(name)).expect("a text"));
    assert_eq!(text, card);
}

/// Two graphs: one has to be named, in full or by a prefix.
#[test]
fn which_graph() {
    let folder = Folder::new();
    let script = "prefix club: <http://club.example/>\nschema club:name xsd:string\n\
        from named club:a from named club:b select $x, $n where graph club:b { $x club:name $n }\n";
    folder.write("two.page", script);
    folder.write("pages/a.ttl", "<http://club.example/a> <http://club.example/name> \"A\" .\n");
    folder.write("pages/b.ttl", "<http://club.example/b> <http://club.example/name> \"B\" .\n");
    let publish = |more: &[&str]| {
        folder.willet(&[&["publish", "two.page", "--from", "pages", "-q", "-o", "out.nt"], more].concat())
    };
    let both = "http://club.example/a, http://club.example/b";
    let said = publish(&[]);
    assert_eq!(said.code, Some(1));
    assert_eq!(said.err, format!("error: several graphs are fetched\n = help: name one by --graph: {both}\n\n"));
    for graph in ["http://club.example/b", "club:b"] {
        let said = publish(&["--graph", graph]);
        assert_eq!(said.out, "out.nt: http://club.example/b, 1 records, 0 left out\n");
        let text = std::fs::read_to_string(folder.path("out.nt")).expect("a text");
        assert_eq!(text, "<http://club.example/b> <http://club.example/name> \"B\" .\n");
    }
    let said = publish(&["--graph", "club:c"]);
    let not_fetched = format!("error[22]: http://club.example/c: graph not fetched\n = help: fetched: {both}\n\n");
    assert_eq!((said.code, said.err), (Some(1), not_fetched));
}

#[test]
fn nothing_to_publish() {
    let folder = season();
    folder.write("idle.page", "success\n");
    let said = folder.willet(&["publish", "idle.page", "-q", "-o", "out.ttl"]);
    assert_eq!(
        (said.code, said.err.as_str()),
        (Some(1), "error: no graph is fetched, so there is nothing to publish\n\n")
    );
    let said = folder.willet(&["publish", "idle.page", "-q", "-o", "out.ttl", "--graph", "http://a/"]);
    assert_eq!(said.err, "error[22]: http://a/: graph not fetched\n = help: fetched: nothing\n\n");
    for output in ["out", "out.rdf", "out.html", "out.txt"] {
        let said = folder.willet(&["publish", "yard.page", "--from", "pages", "-o", output]);
        assert_eq!(said.code, Some(1));
        assert!(said.err.starts_with(&format!("error: {output}: its extension tells no form\n")), "{}", said.err);
        assert!(!folder.path(output).exists());
    }
}

/// What no text can hold is told, and stands in the records.
#[test]
fn what_no_text_holds() {
    let folder = season();
    let tagged = "<?xml version=\"1.0\"?>\n<rdf:RDF xmlns:rdf=\"http://www.w3.org/1999/02/22-rdf-syntax-ns#\" \
        xmlns:p=\"http://p.example/\">\n<rdf:Description rdf:about=\"http://club.example/loco/1\">\n\
        <p:name xml:lang=\"en--\">Mallard</p:name><p:name>Rocket</p:name></rdf:Description></rdf:RDF>\n";
    folder.write("odd/yard.rdf", tagged);
    let args = ["publish", "yard.page", "--from", "odd", "-q", "-o", "out.ttl"];
    let said = folder.willet(&[&args[..], &NOON].concat());
    assert_eq!(said.out, "out.ttl: http://club.example/yard, 1 records, 1 left out\n");
    assert_eq!(said.err, "left out: club:loco/1 p:name Mallard\n    no text has the language tag en--\n");
    assert_eq!(
        publish(&folder, "odd", "out.records"),
        "out.records: http://club.example/yard, 2 records, 0 left out\n"
    );
}

/// Addresses and names as long as they may be.
#[test]
fn long_texts() {
    for bytes in [40, 41, TEXT_WIDTH - 1, TEXT_WIDTH] {
        let start = "http://server.club.example/";
        let address = |end: &str| format!("{start}{end:->width$}", width = bytes - start.len());
        let (yard, property) = (address("yard"), address("name"));
        let folder = Folder::new();
        let script = format!("schema <{property}> xsd:string\nfrom named <{yard}>\n");
        folder.write("yard.page", format!("{script}do select $l, $n where graph <{yard}> {{ $l <{property}> $n }}\n"));
        let row = |loco: &str, name: &str| format!("<{}> <{property}> \"{name:->bytes$}\"@en .\n", address(loco));
        let text = row("loco-1", "Adler") + &row("loco-1", "Mallard") + &row("loco-2", "Adler");
        let file = format!("pages/server.club.example/{:->width$}", "yard", width = bytes - start.len());
        folder.write(&format!("{file}.nt"), &text);
        let said = publish(&folder, "pages", "out.nt");
        assert_eq!(said, format!("out.nt: {yard}, 3 records, 0 left out\n"));
        assert_eq!(std::fs::read_to_string(folder.path("out.nt")).expect("a text"), text, "{bytes} bytes");
        publish(&folder, "pages", "out.records");
        let length = std::fs::read(folder.path("out.records")).expect("records").len();
        assert_eq!(Some(length), record_width(0x82).map(|width| 3 * width));
    }
}
