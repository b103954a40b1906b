//! Addresses and names of more than 40 bytes, and up to 96, go through every command; what is longer is told; and cards of before, whose
//! texts had fields of 40 bytes, are none.

mod common;

use common::{Club, Folder};
use willetcoffer::limits::{ENTRY_WIDTH, TAG_WIDTH, TEXT_WIDTH, URI_WIDTH};
use willetcoffer::page::record_width;

/// Bytes of a text in a card of before.
const OLD_TEXT: usize = 40;

/// The longest text of before, one byte more, one byte fewer than the longest, and the longest.
const LENGTHS: [usize; 4] = [OLD_TEXT, OLD_TEXT + 1, TEXT_WIDTH - 1, TEXT_WIDTH];

/// An address of so many bytes.
fn address(bytes: usize, end: &str) -> String {
    let start = "http://server.club.example/";
    format!("{start}{end:->width$}", width = bytes - start.len())
}

/// A name of so many bytes.
fn name(bytes: usize, end: &str) -> String {
    format!("{end:->bytes$}")
}

/// From a yard, each locomotive whose name is not this one; the addresses are as long as that.
fn script(bytes: usize) -> String {
    let (yard, property, other) = (address(bytes, "yard"), address(bytes, "name"), name(bytes, "Adler"));
    format!(
        "schema <{property}> xsd:string\nfrom named <{yard}>\n\
         do select $loco, $name where graph <{yard}> {{ $loco <{property}> $name }}  $name != \"{other}\"@de\n"
    )
}

/// Two locomotives, one of which is called so.
fn page(bytes: usize) -> String {
    let row = |loco: &str, called: String, tag: &str| {
        format!("<{}> <{}> \"{called}\"@{tag} .\n", address(bytes, loco), address(bytes, "name"))
    };
    row("loco-1", name(bytes, "Mallard"), "en") + &row("loco-2", name(bytes, "Adler"), "de")
}

#[test]
fn check_card_and_show() {
    for bytes in LENGTHS {
        let folder = Folder::new();
        folder.write("a.page", script(bytes));
        let said = folder.willet(&["check", "a.page"]);
        assert_eq!((said.code, said.err.as_str()), (Some(0), ""), "{bytes} bytes");
        assert_eq!(said.out, "a.page: accepted\n  $loco  xsd:anyURI\n  $name  xsd:string\n");
        assert_eq!(folder.willet(&["card", "a.page", "-o", "a.card"]).code, Some(0));
        let card = std::fs::read(folder.path("a.card")).expect("a card");
        // The yard, the name and the property stand in their records byte for byte.
        let field = |at: usize| String::from_utf8(card[at..at + TEXT_WIDTH].to_vec()).expect("text");
        let filled = |text: String| format!("{text:\0<TEXT_WIDTH$}");
        assert_eq!(field(1), filled(address(bytes, "yard")));
        assert_eq!(field(URI_WIDTH + 1 + TAG_WIDTH), filled(name(bytes, "Adler")));
        assert_eq!(field(2 * URI_WIDTH + TAG_WIDTH + 1), filled(address(bytes, "name")));
        let shown = folder.willet(&["show", "a.card"]);
        assert!(shown.out.contains(&format!("from named <{}>\n", address(bytes, "yard"))), "{}", shown.out);
        folder.write("b.page", &shown.out);
        assert_eq!(folder.willet(&["card", "b.page", "-o", "b.card"]).code, Some(0));
        assert_eq!(std::fs::read(folder.path("b.card")).expect("a card"), card, "{bytes} bytes");
    }
}

#[test]
fn page_records() {
    for bytes in LENGTHS {
        let folder = Folder::new();
        folder.write("yard.ttl", page(bytes));
        let yard = address(bytes, "yard");
        let said = folder.willet(&["page", "yard.ttl", "-o", "yard.records", "--graph", &yard]);
        assert_eq!((said.out.as_str(), said.err.as_str()), ("yard.ttl: 2 records, 0 left out\n", ""), "{bytes} bytes");
        let records = std::fs::read(folder.path("yard.records")).expect("records");
        assert_eq!(Some(records.len()), record_width(0x82).map(|width| 2 * width));
        let field = |at: usize| String::from_utf8(records[at..at + TEXT_WIDTH].to_vec()).expect("text");
        let filled = |text: String| format!("{text:\0<TEXT_WIDTH$}");
        let [subject, property, object] = [1, 1 + TEXT_WIDTH, 1 + 2 * TEXT_WIDTH + TAG_WIDTH].map(field);
        assert_eq!(subject, filled(address(bytes, "loco-1")));
        assert_eq!(property, filled(address(bytes, "name")));
        assert_eq!(object, filled(name(bytes, "Mallard")));
    }
}

/// What a run tells of its page, and its roster.
fn roster(bytes: usize) -> (String, String) {
    let yard = address(bytes, "yard");
    let told = format!("wants {yard}\npage  {yard}: 2 records, 0 skipped, 2 quads stored\nended after 4 steps\n");
    let line = "-".repeat(bytes);
    let [loco, called] = [format!("{:bytes$}", "$loco"), "$name".to_owned()];
    let (mallard, name) = (address(bytes, "loco-1"), name(bytes, "Mallard"));
    (told, format!("{loco}  {called}\n{line}  {line}\n{mallard}  {name}\n(1 answer)\n"))
}

#[test]
fn run_from_files_and_over_http() {
    for bytes in LENGTHS {
        let folder = Folder::new();
        folder.write("a.page", script(bytes));
        assert_eq!(folder.willet(&["card", "a.page", "-o", "a.card"]).code, Some(0));
        let yard = address(bytes, "yard");
        let path = yard.strip_prefix("http://server.club.example/").expect("its path");
        folder.write(&format!("pages/{path}.ttl"), page(bytes));
        let (told, table) = roster(bytes);
        for script in ["a.page", "a.card"] {
            let said = folder.willet(&["run", script, "--from", "pages"]);
            assert_eq!((said.code, said.out, said.err), (Some(0), table.clone(), told.clone()), "{bytes} bytes");
        }
        let club = Club::open(&folder, &[]);
        let map = format!("http://server.club.example/={}", club.address);
        let said = folder.willet(&["run", "a.page", "--fetch", "--map", &map]);
        assert_eq!((said.code, said.out), (Some(0), table), "{bytes} bytes: {}", said.err);
    }
}

/// One byte more is told, by how much, in a script and in a page.
#[test]
fn a_byte_too_many() {
    let folder = Folder::new();
    let over = TEXT_WIDTH + 1;
    let [yard, called] = [address(over, "yard"), name(over, "Mallard")];
    folder.write("a.page", format!("from named <{yard}>\n"));
    let said = folder.willet(&["check", "a.page"]);
    assert!(said.err.starts_with("error[2]: this IRI does not go into a record\n"), "{}", said.err);
    assert!(said.err.contains("97 bytes, 1 more than the 96 of a record: http://server.club."), "{}", said.err);
    folder.write("a.page", format!("select $x: xsd:string where $x = \"{called}\"\n"));
    let said = folder.willet(&["check", "a.page"]);
    assert!(said.err.contains("the text has 97 bytes, 1 more than 96\n"), "{}", said.err);
    folder.write(
        "yard.ttl",
        format!(
            "<{yard}> <http://p.example/name> \"a\" .\n<http://l.example/> <http://p.example/name> \"{called}\" .\n"
        ),
    );
    let said = folder.willet(&["page", "yard.ttl", "-o", "yard.records", "--graph", "http://l.example/"]);
    assert_eq!(said.out, "yard.ttl: 0 records, 2 left out\n");
    assert!(said.err.contains("the subject: 97 bytes, 1 more than the 96 of a record"), "{}", said.err);
    assert!(said.err.contains("the text is 1 bytes longer than the 96 of a record"), "{}", said.err);
}

/// A card of before is read by the new lengths, and told to be none.
#[test]
fn cards_of_before() {
    let old = |kind: u8, text: &str| [&[kind], text.as_bytes(), &vec![0; OLD_TEXT - text.len()]].concat();
    let new = |kind: u8, text: &str| [&[kind], text.as_bytes(), &vec![0; TEXT_WIDTH - text.len()]].concat();
    let script = [0x72, 0x32, 0, 0, 0x71];
    let folder = Folder::new();
    let said_of = |command: &str, bytes: &[u8]| {
        folder.write("x.card", bytes);
        let said = folder.willet(&[command, "x.card"]);
        (said.code, said.err.trim_end().to_owned())
    };
    let (terms, schema) = (old(0x11, "club:yard"), [old(0x21, "p:name"), vec![2]].concat());
    for command in ["show", "run"] {
        let bad_term = "error[2]: x.card: bad term record, at byte 0 of the card's terms".to_owned();
        assert_eq!(said_of(command, &[&terms[..], &schema, &script].concat()), (Some(1), bad_term));
        let bad_entry = "error[4]: x.card: bad schema record, at byte 0 of the card's schema".to_owned();
        assert_eq!(said_of(command, &[&new(0x11, "club:yard")[..], &schema, &script].concat()), (Some(1), bad_entry));
    }
    let good = [new(0x11, "club:yard"), new(0x21, "p:name"), vec![2], script.to_vec()].concat();
    assert_eq!(good.len(), URI_WIDTH + ENTRY_WIDTH + script.len());
    assert_eq!(said_of("show", &good), (Some(0), String::new()));
}
