//! Cards in files: text to card to text to card, legends, and bytes that are no card.

mod common;

use common::{examples, Folder};
use willetcoffer::limits::{ENTRY_WIDTH, TEXT_WIDTH};
use willetcoffer::page::record_width;

/// A record of this kind that begins with a URI's field.
fn uri(kind: u8, text: &str) -> Vec<u8> {
    [&[kind], text.as_bytes(), &vec![0; TEXT_WIDTH - text.len()]].concat()
}

#[test]
fn text_to_card_to_text_to_card() {
    for example in ["season/yard.page", "clubs/clubs.page", "names/names.page"] {
        let folder = Folder::new();
        folder.copy(&examples().join(example), "a.page");
        assert_eq!(folder.willet(&["card", "a.page", "-o", "a.card"]).code, Some(0));
        let shown = folder.willet(&["show", "a.card"]);
        folder.write("b.page", &shown.out);
        assert_eq!(folder.willet(&["card", "b.page", "-o", "b.card"]).code, Some(0));
        let bytes = |name| std::fs::read(folder.path(name)).expect("a file");
        assert_eq!(bytes("a.card"), bytes("b.card"), "{example}");
        assert_eq!(bytes("a.legend"), bytes("b.legend"), "{example}");
        assert_eq!(folder.willet(&["show", "b.card"]).out, shown.out, "{example}");
        let types = |name| folder.willet(&["check", name]).out.split_once('\n').map(|(_, types)| types.to_owned());
        assert_eq!(types("a.page"), types("b.page"), "{example}");
    }
}

/// The card of FORMAT, section 13, byte by byte.
#[test]
fn the_card_of_the_format() {
    let folder = Folder::new();
    let text = "schema <p:name> xsd:string, <p:speed> xsd:decimal\nfrom named <c:club>\ndo select $a, $b, $c\n\
        where graph <c:club> { $a <p:name> $b ; <p:speed> $c }  60 < $c\n";
    folder.write("a.page", text);
    assert_eq!(folder.willet(&["card", "a.page", "-o", "a.card"]).code, Some(0));
    let script: [&[u8]; 7] = [
        &[0x72, 0x32, 0, 0],
        &[0x73, 1, 3, 0, 0, 1, 0, 2, 0, 0, 0],
        &[0x62, 0x62],
        &[0x61, 0x32, 0, 0, 0x31, 0, 0x32, 2, 0, 0x31, 1],
        &[0x61, 0x32, 0, 0, 0x31, 0, 0x32, 3, 0, 0x31, 2],
        &[0x64, 0x58, 0x32, 1, 0, 0x31, 2],
        &[0x71],
    ];
    let expected = [
        uri(0x11, "c:club"),
        vec![0x13, 60, 0, 0, 0, 0, 0, 0, 0],
        [uri(0x21, "p:name"), vec![2]].concat(),
        [uri(0x21, "p:speed"), vec![3]].concat(),
        script.concat(),
    ];
    assert_eq!(std::fs::read(folder.path("a.card")).expect("a card"), expected.concat());
}

#[test]
fn a_card_without_its_legend() {
    let folder = Folder::new();
    folder.copy(&examples().join("season/yard.page"), "a.page");
    folder.willet(&["card", "a.page", "-o", "a.card"]);
    std::fs::rename(folder.path("a.legend"), folder.path("its.legend")).expect("a legend");
    let shown = folder.willet(&["show", "a.card"]).out;
    assert!(shown.contains("from named <club:yard>\n") && shown.contains("do select $0, $1, $2\n"), "{shown}");
    let with = folder.willet(&["show", "a.card", "--legend", "its.legend"]).out;
    assert!(with.contains("from named club:yard\n") && with.contains("do select $loco, $name, $speed\n"), "{with}");
    let page = examples().join("season/later");
    let args = ["run", "a.card", "--legend", "its.legend", "-q", "--now", "2026-03-01T12:00:00Z", "--from"];
    let said = folder.willet(&[&args[..], &[&page.display().to_string()]].concat());
    assert!(said.out.contains("club:loco/1  Mallard  126.4"), "{}{}", said.out, said.err);
}

/// A card's bytes, and what is said of them.
#[test]
fn bytes_that_are_no_card() {
    let three = [0x13, 3, 0, 0, 0, 0, 0, 0, 0];
    let twice = format!("error[5]: x.card: a property that stands twice, at byte {ENTRY_WIDTH} of the card's schema");
    let rows: [(Vec<u8>, &str); 9] = [
        (uri(0x11, ""), "error[2]: x.card: bad term record, at byte 0 of the card's terms"),
        (
            [&three[..], &three, &[0x71]].concat(),
            "error[3]: x.card: a term listed twice, at byte 9 of the card's terms",
        ),
        (
            [uri(0x21, "p:a"), vec![6, 0x71]].concat(),
            "error[4]: x.card: bad schema record, at byte 0 of the card's schema",
        ),
        ([uri(0x21, "p:a"), vec![1], uri(0x21, "p:a"), vec![1, 0x71]].concat(), &twice),
        (vec![], "error[6]: x.card: the script ends too early, at byte 0 of the card's script"),
        (vec![0x16], "error[6]: x.card: a script was expected, at byte 0 of the card's script"),
        (vec![0x71, 0x71], "error[6]: x.card: bytes left over after the script, at byte 1 of the card's script"),
        (vec![0x72, 0x32, 0, 0, 0x71], "error[6]: x.card: no term has this number, at byte 1 of the card's script"),
        (
            vec![0x73, 2, 0, 0, 0, 0, 0, 0, 0, 0, 0, 0x65, 0x71],
            "error[6]: x.card: a block's mode, count or unused pair is bad, at byte 1 of the card's script",
        ),
    ];
    let folder = Folder::new();
    for (bytes, expected) in rows {
        folder.write("x.card", &bytes);
        let said = folder.willet(&["run", "x.card", "-q"]);
        assert_eq!((said.code, said.err.trim_end()), (Some(1), expected), "{bytes:x?}");
    }
}

/// A card that is refused for its scope or its types is explained on its text.
#[test]
fn cards_that_are_refused() {
    let three = [0x13, 3, 0, 0, 0, 0, 0, 0, 0];
    let rows = [
        (vec![0x72, 0x31, 0, 0x71], "error[7]: $0 is not bound here", "1 | from named $0"),
        (
            [&three[..], &[0x72, 0x32, 0, 0, 0x71]].concat(),
            "error[8]: no typing: this cannot be typed",
            "1 | from named 3",
        ),
        (
            vec![0x73, 0, 1, 0, 0, 0, 0, 0, 0, 0, 0, 0x65, 0x71],
            "error[9]: there is no greatest typing",
            "1 | select $0",
        ),
    ];
    let folder = Folder::new();
    for (bytes, message, line) in rows {
        folder.write("x.card", &bytes);
        let said = folder.willet(&["run", "x.card", "-q"]);
        let lines: Vec<&str> = said.err.lines().collect();
        assert_eq!((said.code, lines[0], lines[3]), (Some(1), message, line));
        assert!(lines[1].starts_with("  --> x.card, as text:1:"), "{}", said.err);
        assert_eq!(folder.willet(&["show", "x.card"]).code, Some(0));
    }
}

#[test]
fn a_page_from_a_file() {
    let folder = Folder::new();
    folder.copy(&examples().join("season/yard.page"), "yard.page");
    folder.copy(&examples().join("season/pages/yard.ttl"), "yard.ttl");
    let args =
        ["page", "yard.ttl", "-o", "yard.records", "--graph", "http://club.example/yard", "--legend", "yard.page"];
    let said = folder.willet(&args);
    assert_eq!(said.out, "yard.ttl: 10 records, 1 left out\n");
    let story = "The first to be timed at a hundred miles an hour, in November 1934, between Leeds and London on the East Coast Main Line";
    let over = story.len() - TEXT_WIDTH;
    let triple = format!("<http://club.example/loco/5> <http://p.example/story> \"{story}\"");
    let reason = format!("the text is {over} bytes longer than the {TEXT_WIDTH} of a record");
    assert_eq!(said.err, format!("left out: {triple}\n    {reason}\n"));
    // five names and a speed that is a string, an integer, three decimals
    let widths = [0x82, 0x83, 0x84].map(|kind| record_width(kind).expect("a page record"));
    let bytes = std::fs::read(folder.path("yard.records")).expect("records");
    assert_eq!(bytes.len(), 6 * widths[0] + widths[1] + 3 * widths[2]);
    let said = folder.willet(&["page", "yard.page", "-o", "x"]);
    assert!(said.err.starts_with("error: yard.page: its extension tells no format\n"), "{}", said.err);
}
