//! Document 02, Ask 6: texts of up to 96 bytes through the calls, at every place that has one; and cards, pages and tables of before, whose
//! texts had fields of 40.

use willetcoffer::kinds::{ENTRY, INTEGER, PAGE, STRING, URI};
use willetcoffer::limits::{
    ENTRY_WIDTH, OBJECT_OFFSET, PAGE_REPORT_WIDTH, PRINTER_LIMIT, PROPERTY_OFFSET, QUAD_TABLE_WIDTH, RUN_REPORT_WIDTH,
    SAVED_WIDTH, SCHEMA_WIDTH, SLOT_WIDTH, TAG_WIDTH, TERM_LIMIT, TERM_TABLE_WIDTH, TEXT_WIDTH, URI_WIDTH,
};
use willetcoffer::page::{record_width, triple};
use willetcoffer::ranks::BUILT_IN;
use willetcoffer::raw::{self, TablesMut, TablesRef};
use willetcoffer::script::*;
use willetcoffer::{
    BadTerm, Card, Datatype, PageReport, Quad, Refusal, RunReport, SavedRun, State, Tables, Term, Value,
};

/// Bytes of a text before Ask 6.
const OLD_TEXT: usize = 40;

/// The longest text of before, one byte more, one byte fewer than the longest, and the longest.
const LENGTHS: [usize; 4] = [OLD_TEXT, OLD_TEXT + 1, TEXT_WIDTH - 1, TEXT_WIDTH];

/// A text of so many bytes, all of them alike but the last.
fn ending(bytes: usize, last: char) -> String {
    format!("{}{last}", "x".repeat(bytes - 1))
}

fn uri(text: &str) -> Term {
    Term::uri(text).unwrap()
}

fn string(text: &str) -> Term {
    Term::string(text).unwrap()
}

fn refusal(card: &Card) -> u32 {
    card.load(&mut Tables::new()).map_or_else(Refusal::number, |_| 0)
}

fn loaded(card: &Card) -> (Tables, SavedRun) {
    let mut tables = Tables::new();
    let saved = card.load(&mut tables).unwrap();
    (tables, saved)
}

/// Whether a once block with this filter goes on, over these listed terms.
fn holds(listed: &[Term], cond: Boolean, ranks: [u8; 95]) -> bool {
    let card = Card::new(listed, &[], once(&[], filter(cond), success()));
    let mut tables = Tables::new().with_ranks(ranks);
    let mut saved = card.load(&mut tables).unwrap();
    match card.run(&tables, &mut saved, 9, 0).unwrap() {
        RunReport { steps: 2, state: State::Ended } => true,
        RunReport { steps: 0, state: State::Waiting } => false,
        other => panic!("{other:?}"),
    }
}

/// "A slot becomes 105 bytes and the term table 53,760. The type printer takes up to 68,352 bytes."
#[test]
fn the_widths_of_the_document() {
    assert_eq!((TEXT_WIDTH, SLOT_WIDTH, TERM_TABLE_WIDTH, PRINTER_LIMIT), (96, 105, 53_760, 68_352));
    assert_eq!((URI_WIDTH, ENTRY_WIDTH, SCHEMA_WIDTH, SAVED_WIDTH), (97, 98, 12_544, 486));
    assert_eq!((PROPERTY_OFFSET, OBJECT_OFFSET), (97, 193));
    assert_eq!((0x81..=0x85).map(record_width).collect::<Vec<_>>(), [289, 297, 201, 201, 201].map(Some));
}

#[test]
fn terms() {
    for bytes in LENGTHS {
        let text = ending(bytes, 'y');
        let [address, name] = [uri(&text), Term::tagged("abcdefgh", &text).unwrap()];
        assert_eq!((address.value(), address.to_string()), (Value::Uri(&text), text.clone()));
        assert_eq!(name.value(), Value::String { tag: "abcdefgh", text: &text });
        for term in [address, name] {
            assert_eq!(Term::from_slot(term.slot()), Some(term));
        }
    }
    let over = "x".repeat(TEXT_WIDTH + 1);
    assert_eq!((Term::uri(&over), Term::string(&over)), (Err(BadTerm::Uri), Err(BadTerm::Text)));
    assert_eq!(BadTerm::Uri.to_string(), "a URI has 1 to 96 bytes from 21 to 7E");
}

/// What a load writes: each record in its slot of 105 bytes, and zeros.
#[test]
fn the_term_table() {
    for bytes in LENGTHS {
        let [a, b] = ['a', 'b'].map(|last| ending(bytes, last));
        let listed = [uri(&a), Term::tagged("en", &a).unwrap(), string(&b)];
        let card = Card::new(&listed, &[(uri(&b), Datatype::String), (uri(&a), Datatype::Integer)], success());
        let (tables, _) = loaded(&card);
        let mut expected = vec![0; TERM_TABLE_WIDTH];
        let slots = [(URI, "", &a), (STRING, "en", &a), (STRING, "", &b), (URI, "", &b)];
        for (slot, (kind, tag, text)) in expected.chunks_mut(SLOT_WIDTH).zip(slots) {
            slot[0] = kind;
            slot[1..1 + tag.len()].copy_from_slice(tag.as_bytes());
            let at = if kind == STRING { 1 + TAG_WIDTH } else { 1 };
            slot[at..at + bytes].copy_from_slice(text.as_bytes());
        }
        assert!(tables.term_bytes()[..] == expected, "{bytes} bytes");
        // The same text again, of a term and of a property.
        let twice = |listed: &[Term], schema: &[(Term, Datatype)]| refusal(&Card::new(listed, schema, success()));
        assert_eq!(twice(&[uri(&a), uri(&b), uri(&a)], &[]), 3);
        assert_eq!(twice(&[], &[(uri(&a), Datatype::String), (uri(&a), Datatype::Integer)]), 5);
        assert_eq!(twice(&[uri(&a), uri(&b)], &[(uri(&a), Datatype::String), (uri(&b), Datatype::String)]), 0);
    }
}

/// A bad byte, or one after the text's end, wherever in a field: 2, 4 and 13.
#[test]
fn every_byte_of_a_field_counts() {
    let card = Card::new(&[uri("u:yard")], &[(uri("p:name"), Datatype::String)], success());
    let (mut tables, mut saved) = loaded(&card);
    let good = triple(&uri("u:a"), &uri("p:b"), &string("c")).unwrap();
    for place in 0..TEXT_WIDTH {
        let end = place == TEXT_WIDTH - 1;
        for (byte, fine) in [(0x7f, false), (0x1f, false), (0, end), (b'~', true)] {
            let mut full = [b'x'; TEXT_WIDTH];
            full[place] = byte;
            let term = Card { terms: [&[URI], &full[..]].concat(), schema: Vec::new(), ..card.clone() };
            assert_eq!(refusal(&term), if fine { 0 } else { 2 }, "{byte:02x} at {place}");
            let text =
                Card { terms: [&[STRING], &[0; TAG_WIDTH][..], &full].concat(), schema: Vec::new(), ..card.clone() };
            assert_eq!(refusal(&text), if fine { 0 } else { 2 }, "{byte:02x} at {place}");
            let entry = Card { terms: Vec::new(), schema: [&[ENTRY], &full[..], &[2]].concat(), ..card.clone() };
            assert_eq!(refusal(&entry), if fine { 0 } else { 4 }, "{byte:02x} at {place}");
            for field in [1, PROPERTY_OFFSET, OBJECT_OFFSET + TAG_WIDTH] {
                let mut page = good.clone();
                page[field..field + TEXT_WIDTH].copy_from_slice(&full);
                let expected = if fine { Ok(PageReport { skipped: 1 }) } else { Err(Refusal::Page) };
                assert_eq!(
                    card.page(&mut tables, &mut saved, 0u16, &page),
                    expected,
                    "{byte:02x} at {field} and {place}"
                );
            }
        }
        // After the end of a text of one byte.
        let mut page = good.clone();
        page[1..1 + TEXT_WIDTH].fill(0);
        page[1] = b'u';
        page[1 + place] = b'u';
        let expected = if place < 2 { Ok(PageReport { skipped: 1 }) } else { Err(Refusal::Page) };
        assert_eq!(card.page(&mut tables, &mut saved, 0u16, &page), expected, "{place}");
    }
}

/// A page's subject, property and object: quads and new terms; a property that differs in its last byte is none of the schema's.
#[test]
fn pages() {
    for bytes in LENGTHS {
        let [a, b] = ['a', 'b'].map(|last| ending(bytes, last));
        let card =
            Card::new(&[uri(&a)], &[(uri("p:friend"), Datatype::AnyUri), (uri(&b), Datatype::String)], success());
        let (mut tables, mut saved) = loaded(&card);
        let record =
            |subject: &str, property: &str, object: Term| triple(&uri(subject), &uri(property), &object).unwrap();
        let page = [
            record(&b, "p:friend", uri(&a)),
            record(&b, &b, string(&a)),
            record(&b, &b, string(&b)),
            record(&b, &a, string("new")),
            record(&b, &b, uri(&a)),
        ];
        assert_eq!(card.page(&mut tables, &mut saved, 0u16, &page.concat()), Ok(PageReport { skipped: 2 }));
        let terms: Vec<Term> = tables.terms().collect();
        assert_eq!(terms, [uri(&a), uri("p:friend"), uri(&b), string(&a), string(&b)]);
        let quad = |subject, property, object| Quad { graph: 0, subject, property, object };
        assert_eq!(tables.quads(&saved).collect::<Vec<_>>(), [quad(2, 1, 0), quad(2, 2, 3), quad(2, 2, 4)]);
    }
}

/// Str, equal, less and patterns look at a text to its end.
#[test]
fn values() {
    let turned = BUILT_IN.map(|rank| 94 - rank);
    for bytes in LENGTHS {
        let [a, b] = ['a', 'B'].map(|last| ending(bytes, last));
        // Terms: 0 and 1 the URIs, 2 and 3 the strings, 4 the text without its last byte, 5 the first string with a tag.
        let listed =
            [uri(&a), uri(&b), string(&a), string(&b), string(&a[..bytes - 1]), Term::tagged("en", &a).unwrap()];
        let all_hold = |conds: &[Boolean], ranks| conds.iter().all(|cond| holds(&listed, cond.clone(), ranks));
        let none_holds = |conds: &[Boolean], ranks| conds.iter().all(|cond| !holds(&listed, cond.clone(), ranks));
        let same = [
            equal(str(con(0)), con(2)),
            equal(str(con(5)), con(2)),
            equal(str(str(con(1))), con(3)),
            equal(con(0), con(0)),
            regex("a$", con(2)),
            regex("^x*a$", str(con(0))),
            regex("xB", con(3)),
            regex("^x*$", con(4)),
        ];
        let others = [
            equal(con(0), con(1)),
            equal(con(2), con(3)),
            equal(con(2), con(4)),
            equal(str(con(0)), con(3)),
            equal(str(con(0)), con(4)),
            equal(con(5), con(2)),
            regex("a$", con(3)),
            regex("^x*$", str(con(0))),
            regex("a.", con(2)),
        ];
        for ranks in [BUILT_IN, turned] {
            assert!(all_hold(&same, ranks) && none_holds(&others, ranks), "{bytes} bytes");
            // URIs by bytes, B before a; the end first.
            assert!(all_hold(&[less(con(1), con(0)), less(con(4), con(2)), less(con(4), str(con(1)))], ranks));
            assert!(none_holds(&[less(con(0), con(1)), less(con(2), con(4)), less(con(0), con(0))], ranks));
        }
        // Strings by the ranks: a before B by the built-in ones.
        assert!(all_hold(&[less(con(2), con(3)), less(str(con(0)), str(con(1)))], BUILT_IN), "{bytes} bytes");
        assert!(none_holds(&[less(con(3), con(2))], BUILT_IN) && none_holds(&[less(con(2), con(3))], turned));
        assert!(all_hold(&[less(con(3), con(2))], turned));
    }
}

/// A run over a page of long texts, stored and handed in again; a byte of a slot that is another makes the store unsound.
#[test]
fn saved_stores() {
    for bytes in LENGTHS {
        let [a, b] = ['a', 'b'].map(|last| ending(bytes, last));
        let named = both(pattern([con(0), var(0), con(1), var(1)]), filter(equal(str(var(0)), str(var(1)))));
        let script = from_named(con(0), each(&[(0, None), (1, None)], named, success()));
        let card = Card::new(&[uri("u:yard")], &[(uri("p:name"), Datatype::String)], script);
        let (mut tables, mut saved) = loaded(&card);
        let name = |subject: &str, name: &str| triple(&uri(subject), &uri("p:name"), &string(name)).unwrap();
        // Terms from 2 on: the URI of a, the string of b, that of a, the URI of b.
        let page = [name(&a, &b), name(&a, &a), name(&b, &b)].concat();
        assert_eq!(card.page(&mut tables, &mut saved, 0u16, &page), Ok(PageReport { skipped: 0 }));
        let report = card.run(&tables, &mut saved, 2, 0).unwrap();
        assert_eq!((report.steps, saved.binding(0), saved.binding(1)), (2, Some(2), Some(4)));
        let stored = Tables::from_bytes(Box::new(*tables.term_bytes()), Box::new(*tables.quad_bytes()));
        let mut again = SavedRun::from_bytes(*saved.as_bytes());
        assert_eq!(card.run(&stored, &mut again, 2, 0), Ok(RunReport { steps: 2, state: State::Spent }));
        assert_eq!((again.binding(0), again.binding(1)), (Some(5), Some(3)));
        for (at, byte) in
            [(SLOT_WIDTH * 3 - 1, 1), (SLOT_WIDTH * 4 - 1, 0x7f), (SLOT_WIDTH * 6, 1), (TERM_TABLE_WIDTH - 1, 1)]
        {
            let mut terms = Box::new(*tables.term_bytes());
            terms[at] = byte;
            let mut other = Tables::from_bytes(terms, Box::new(*tables.quad_bytes()));
            assert_eq!(card.run(&other, &mut saved, 0, 0), Err(Refusal::Unsound), "{at}");
            assert_eq!(card.page(&mut other, &mut saved, 0u16, &[]), Err(Refusal::Unsound), "{at}");
        }
    }
}

/// A field of before.
fn old_field(text: &str) -> [u8; OLD_TEXT] {
    let mut field = [0; OLD_TEXT];
    field[..text.len()].copy_from_slice(text.as_bytes());
    field
}

fn old_uri(text: &str) -> Vec<u8> {
    [&[URI], &old_field(text)[..]].concat()
}

fn old_string(text: &str) -> Vec<u8> {
    [&[STRING], &[0; TAG_WIDTH][..], &old_field(text)].concat()
}

fn old_entry(property: &str) -> Vec<u8> {
    [&[ENTRY], &old_field(property)[..], &[Datatype::String.code()]].concat()
}

/// "Old schema records .. are read by the new lengths and refused where these don't fit": what follows a text stands in it, or is missing.
#[test]
fn cards_of_before() {
    let [short, full] = ["http://club.example/yard".to_string(), "x".repeat(OLD_TEXT)];
    let three = [&[INTEGER], &3i64.to_le_bytes()[..]].concat();
    for text in [&short, &full] {
        for terms in [
            old_uri(text),
            old_string(text),
            [old_uri(text), old_string("a")].concat(),
            [three.clone(), old_string(text), three.clone()].concat(),
            [old_uri(text), old_uri("u:b"), old_uri("u:c")].concat(),
        ] {
            let card = Card { terms, ..Card::new(&[], &[(uri("p:name"), Datatype::String)], success()) };
            assert_eq!((refusal(&card), card.total().map_err(Refusal::number)), (2, Err(2)), "{:02x?}", card.terms);
        }
        for count in 1..4 {
            let more: Vec<u8> = (1..count).flat_map(|n| old_entry(&format!("p:{n}"))).collect();
            let schema = [old_entry(text), more].concat();
            let card = Card { schema: schema.clone(), ..Card::new(&[uri("u:yard")], &[], success()) };
            assert_eq!((refusal(&card), card.total().map_err(Refusal::number)), (4, Err(4)), "{count} entries");
            assert_eq!(refusal(&Card { terms: old_uri(text), schema, ..card }), 2);
        }
    }
    // Numbers have no text, and are as they were.
    assert_eq!(refusal(&Card { terms: three, ..Card::new(&[], &[], success()) }), 0);
}

/// Old pages are read by the new lengths: 13, whatever stands in them.
#[test]
fn pages_of_before() {
    let card = Card::new(&[uri("u:yard")], &[(uri("p:name"), Datatype::String)], success());
    let (mut tables, mut saved) = loaded(&card);
    let texts = ["u".to_string(), "x".repeat(OLD_TEXT)];
    for subject in &texts {
        for property in &texts {
            let head = |kind| [&[PAGE + kind], &old_field(subject)[..], &old_field(property)].concat();
            let objects =
                [(URI, old_field("u:b").to_vec()), (URI, old_field(&texts[1]).to_vec()), (INTEGER, vec![0; 8])];
            let strings = texts.each_ref().map(|text| (STRING, [&b"abcdefgh"[..], &old_field(text)].concat()));
            for (kind, object) in objects.into_iter().chain(strings) {
                let record = [head(kind), object].concat();
                for count in [1, 2, 3, 9] {
                    let page = record.repeat(count);
                    assert_eq!(
                        card.page(&mut tables, &mut saved, 0u16, &page),
                        Err(Refusal::Page),
                        "{count} of {kind:02x}"
                    );
                }
            }
        }
    }
    assert_eq!(card.page(&mut tables, &mut saved, 0u16, &[]), Ok(PageReport { skipped: 0 }));
}

/// "Old tables meet refusal 1": 25,088 bytes, in every call that is lent one. In a buffer of now they are unsound.
#[test]
fn tables_of_before() {
    let old_slot = |text: &str| {
        let mut slot = old_uri(text);
        slot.resize(1 + TAG_WIDTH + OLD_TEXT, 0);
        slot
    };
    let card = Card::new(&[uri("u:yard")], &[(uri("p:name"), Datatype::String)], success());
    let (good, saved) = loaded(&card);
    let mut old = [old_slot("u:yard"), old_slot("p:name")].concat();
    old.resize(TERM_LIMIT * (1 + TAG_WIDTH + OLD_TEXT), 0);
    assert_eq!(old.len(), 25_088);
    let calls = |terms: &mut [u8]| {
        let (mut quads, mut saved) = (vec![0; QUAD_TABLE_WIDTH], *saved.as_bytes());
        let (mut run, mut page) = ([9; RUN_REPORT_WIDTH], [9; PAGE_REPORT_WIDTH]);
        let ran = raw::run(&card, TablesRef { ranks: &BUILT_IN, terms, quads: &quads }, &mut saved, 1, 0, &mut run);
        let lent = TablesMut { ranks: &BUILT_IN, terms, quads: &mut quads };
        let paged = raw::page(&card, lent, &mut saved, 0, &[], &mut page);
        (ran, paged)
    };
    let before = old.clone();
    assert_eq!(calls(&mut old), (1, 1));
    let (mut quads, mut fresh) = (vec![7; QUAD_TABLE_WIDTH], [7; SAVED_WIDTH]);
    let lent = TablesMut { ranks: &BUILT_IN, terms: &mut old, quads: &mut quads };
    assert_eq!(raw::load(&card, lent, &mut fresh), 1);
    assert_eq!((old, quads, fresh), (before.clone(), vec![7; QUAD_TABLE_WIDTH], [7; SAVED_WIDTH]));
    let mut widened = before;
    widened.resize(TERM_TABLE_WIDTH, 0);
    assert_eq!(calls(&mut widened), (10, 10));
    assert_eq!(calls(&mut good.term_bytes().clone()), (0, 0));
}
