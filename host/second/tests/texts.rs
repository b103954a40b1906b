//! Document 02, Ask 6: URI text and string text of up to 96 bytes, at every place that has one.

mod common;
use common::{stock, Station};
use second::edge::OLD_TEXT;
use second::limits::*;
use second::rank::BUILT_IN;
use second::term::{fill, Term};
use second::types::Datatype;
use second::write::*;

const ENDED: u8 = 0;
const WANTED: u8 = 1;
const WAITING: u8 = 2;
const SPENT: u8 = 3;

/// The longest text of before, one byte more, one byte fewer than the longest, and the longest.
const LENGTHS: [usize; 4] = [OLD_TEXT, OLD_TEXT + 1, TEXT - 1, TEXT];

/// A text of so many bytes, all of them alike but the last.
fn ending(bytes: usize, last: char) -> String {
    format!("{}{last}", "x".repeat(bytes - 1))
}

fn load(terms: Vec<u8>, schema: Vec<u8>) -> u32 {
    Station::new(terms, schema, success()).load()
}

/// Whether a once block with this filter goes on, over these listed terms, by these ranks.
fn holds(listed: &[Term], cond: Bytes, ranks: &[u8]) -> bool {
    let mut s = Station::new(terms(listed), vec![], once(&[], filter(cond), success()));
    s.ranks = ranks.to_vec();
    assert_eq!(s.load(), 0);
    match s.run(9, 0) {
        Ok((2, ENDED, 0)) => true,
        Ok((0, WAITING, 0)) => false,
        other => panic!("{other:?}"),
    }
}

/// "A slot becomes 105 bytes and the term table 53,760. The type printer takes up to 68,352 bytes." Page and saved run stay.
#[test]
fn the_widths_of_the_document() {
    assert_eq!((TEXT, SLOT, TERM_TABLE, PRINTER), (96, 105, 53_760, 68_352));
    assert_eq!((ENTRY, ENTRIES * ENTRY, PAGE, SAVED), (98, 12_544, 65_536, 486));
    let widths = [uri("u"), string("s"), Term::Int(0), Term::Dec(0), Term::Time(0)].map(|term| {
        let page = triple(&fill(b"u"), &fill(b"p"), &term);
        (term.record().len(), page.len())
    });
    assert_eq!(widths, [(97, 289), (105, 297), (9, 201), (9, 201), (9, 201)]);
    assert_eq!(schema(&[("p", Datatype::String)]).len(), 98);
    // The evaluator's input: ranks, three lengths, a full card, both tables, the saved run, now, 64 tuples.
    assert_eq!(EVALUATOR, 95 + 6 + 68_352 + 53_760 + 4_096 + 486 + 8 + 512);
}

/// A listed URI and a listed string of each length stand in their slots byte for byte, the text from the kind or the tag on.
#[test]
fn listed_terms() {
    for bytes in LENGTHS {
        let text = ending(bytes, 'y');
        let s = Station::loaded(terms(&[uri(&text), tagged("abcdefgh", &text)]), stock(), success());
        let mut expected = vec![0; TERM_TABLE];
        expected[0] = 0x11;
        expected[1..1 + bytes].copy_from_slice(text.as_bytes());
        expected[SLOT] = 0x12;
        expected[SLOT + 1..][..TAG].copy_from_slice(b"abcdefgh");
        expected[SLOT + 1 + TAG..][..bytes].copy_from_slice(text.as_bytes());
        for (slot, property) in (2..).zip(["p:speed", "p:addr", "p:name"]) {
            expected[SLOT * slot] = 0x11;
            expected[SLOT * slot + 1..][..property.len()].copy_from_slice(property.as_bytes());
        }
        assert!(s.term_table == expected, "{bytes} bytes");
    }
}

/// A byte other than zero after a zero, and a byte that no text has, wherever in the field.
#[test]
fn every_byte_of_a_field_counts() {
    let uri_of = |text: &[u8]| load([&[0x11], text].concat(), vec![]);
    let string_of = |text: &[u8]| load([&[0x12], &[0; TAG][..], text].concat(), vec![]);
    let property_of = |text: &[u8]| load(vec![], [&[0x21], text, &[2]].concat());
    for place in 0..TEXT {
        let mut full = [b'x'; TEXT];
        for (byte, in_uri, in_string) in
            [(0x21, 0, 0), (0x7e, 0, 0), (0x20, 2, 0), (0x1f, 2, 2), (0x7f, 2, 2), (0x80, 2, 2), (0xff, 2, 2)]
        {
            full[place] = byte;
            assert_eq!((uri_of(&full), string_of(&full)), (in_uri, in_string), "{byte:02x} at {place}");
            assert_eq!(property_of(&full), 2 * in_uri, "{byte:02x} at {place}");
        }
        // A zero ends the text: it is good at the end only, and a text of a URI is not empty.
        full[place] = 0;
        let last = place == TEXT - 1;
        assert_eq!((uri_of(&full) == 0, string_of(&full) == 0, property_of(&full) == 0), (last, last, last));
        let mut short = fill::<TEXT>(b"x");
        short[place] = b'x';
        let joined = place < 2;
        assert_eq!((uri_of(&short), string_of(&short)), if joined { (0, 0) } else { (2, 2) }, "{place}");
        assert_eq!(property_of(&short), if joined { 0 } else { 4 }, "{place}");
    }
    // A field cut off, and a byte past the field: it begins the next record.
    assert_eq!((uri_of(&[b'x'; TEXT - 1]), string_of(&[b'x'; TEXT - 1])), (2, 2));
    assert_eq!((uri_of(&[b'x'; TEXT + 1]), string_of(&[b'x'; TEXT + 1])), (2, 2));
    assert_eq!((property_of(&[b'x'; TEXT - 1]), property_of(&[b'x'; TEXT + 1])), (4, 4));
}

/// Terms are told apart by every byte: listed ones, a schema's properties, and both together.
#[test]
fn terms_that_differ_in_the_last_byte() {
    for bytes in LENGTHS {
        let [a, b] = ['a', 'b'].map(|last| ending(bytes, last));
        assert_eq!(load(terms(&[uri(&a), uri(&b), string(&a), string(&b)]), vec![]), 0);
        assert_eq!((load(terms(&[uri(&a); 2]), vec![]), load(terms(&[string(&b); 2]), vec![])), (3, 3));
        let [p, q] = [&a, &b].map(|text| (text.as_str(), Datatype::String));
        assert_eq!((load(vec![], schema(&[p, q])), load(vec![], schema(&[q, q]))), (0, 5));
        // A property that is listed is not numbered again; one that differs in its last byte is.
        let s = Station::loaded(terms(&[uri(&a)]), schema(&[p, q]), success());
        assert_eq!(s.terms_in_use(), [uri(&a), uri(&b)]);
    }
}

/// A page's subject, property and object of each length: quads, new terms, and what is skipped.
#[test]
fn pages() {
    for bytes in LENGTHS {
        let [a, b] = ['a', 'b'].map(|last| ending(bytes, last));
        let body = |text: &str| fill::<TEXT>(text.as_bytes());
        let properties = [(a.as_str(), Datatype::AnyUri), ("p:name", Datatype::String)];
        let mut s = Station::loaded(terms(&[uri("g:a")]), schema(&properties), success());
        let page = [
            // Terms: 0 g:a, 1 the property, 2 p:name; 3 the subject, 1 again as an object; 4 a string, 5 and 6 new ones.
            triple(&body(&b), &body(&a), &uri(&a)),
            triple(&body(&b), &body("p:name"), &string(&a)),
            triple(&body(&b), &body("p:name"), &string(&b)),
            triple(&body(&b), &body("p:name"), &tagged("en", &b)),
            // No such property: its last byte is another.
            triple(&body(&b), &body(&b), &uri("u:new")),
            // No string.
            triple(&body(&b), &body("p:name"), &uri(&a)),
        ];
        assert_eq!(s.page(0, &page.concat()), Ok(2), "{bytes} bytes");
        assert_eq!(s.terms_in_use()[3..], [uri(&b), string(&a), string(&b), tagged("en", &b)]);
        assert_eq!(s.quads(), [[0, 3, 1, 1], [0, 3, 2, 4], [0, 3, 2, 5], [0, 3, 2, 6]]);
        // As bytes: kind, subject, property, object, each field as long as it is.
        let [record, ..] = page;
        let mut expected = vec![0; 1 + 3 * TEXT];
        expected[0] = 0x81;
        for (at, text) in [(1, &b), (1 + TEXT, &a), (1 + 2 * TEXT, &a)] {
            expected[at..at + bytes].copy_from_slice(text.as_bytes());
        }
        assert_eq!(record, expected);
    }
}

/// A bad byte at the end of each field of a page's record is 13, also of a record that would be skipped.
#[test]
fn every_field_of_a_page_counts() {
    let mut s = Station::loaded(terms(&[uri("g:a")]), stock(), success());
    let full = [b'x'; TEXT];
    for object in [Term::Uri(full), Term::Str([b'e'; TAG], full), Term::Int(1)] {
        let good = triple(&full, &full, &object);
        assert_eq!(s.page(0, &good), Ok(1));
        let ends = [1 + TEXT, 1 + 2 * TEXT].into_iter().chain((object != Term::Int(1)).then_some(good.len()));
        for end in ends {
            for (byte, code) in [(0x7f, Err(13)), (0x1f, Err(13)), (0, Ok(1)), (b'y', Ok(1))] {
                let mut page = good.clone();
                page[end - 1] = byte;
                assert_eq!(s.page(0, &page), code, "{byte:02x} before {end}");
            }
        }
        assert_eq!(s.page(0, &good[..good.len() - 1]), Err(13));
    }
}

/// A page for a graph whose URI is as long as may be, wanted by its number and fetched.
#[test]
fn a_graph_as_long_as_may_be() {
    let graph = ending(TEXT, 'g');
    let script = from_named(con(0), once(&[(0, 0)], pattern(con(0), con(0), con(3), var(0)), success()));
    let mut s = Station::loaded(terms(&[uri(&graph)]), stock(), script);
    assert_eq!(s.run(9, 0), Ok((0, WANTED, 0)));
    let name = triple(&fill(graph.as_bytes()), &fill(b"p:name"), &string(&ending(TEXT, 'n')));
    assert_eq!(s.page(0, &name), Ok(0));
    assert_eq!(s.quads(), [[0, 0, 3, 4]]);
    assert_eq!(s.run(9, 0), Ok((3, ENDED, 0)));
    assert_eq!(s.bound(0), Some(4));
}

/// "str results follow": the whole text, of a URI and of a string.
#[test]
fn str_of_long_texts() {
    for bytes in LENGTHS {
        let [a, b] = ['a', 'b'].map(|last| ending(bytes, last));
        let cut = &a[..bytes - 1];
        // Terms: 0 the URI, 1 the string with a tag, 2 the text itself, 3 another last byte, 4 one byte fewer.
        let listed = [uri(&a), tagged("en", &a), string(&a), string(&b), string(cut)];
        for side in [str(con(0)), str(con(1)), str(con(2)), str(str(con(0)))] {
            let same = |other| holds(&listed, equal(side.clone(), con(other)), &BUILT_IN);
            assert_eq!([2, 3, 4].map(same), [true, false, false], "{bytes} bytes");
            let before = |other| holds(&listed, less(side.clone(), con(other)), &BUILT_IN);
            assert_eq!([2, 3, 4].map(before), [false, true, false], "{bytes} bytes");
        }
        assert!(!holds(&listed, equal(con(1), con(2)), &BUILT_IN), "a tag is there");
    }
}

/// Less on strings and on URIs of texts that differ in their last byte alone, or by it being there.
#[test]
fn order_of_long_texts() {
    let turned: Vec<u8> = BUILT_IN.iter().map(|rank| 94 - rank).collect();
    for bytes in LENGTHS {
        let texts = [ending(bytes, 'B'), ending(bytes, 'a'), "x".repeat(bytes - 1)];
        let strings = texts.each_ref().map(|text| string(text));
        let uris = texts.each_ref().map(|text| uri(text));
        let is_less = |listed: &[Term; 3], ranks: &[u8]| {
            let pairs = [(0, 1), (1, 0), (2, 0), (0, 2), (2, 1), (0, 0)];
            pairs.map(|(a, b)| holds(listed, less(con(a), con(b)), ranks))
        };
        // By the built-in ranks a comes before B, turned round it is the other way; the end comes first always.
        assert_eq!(is_less(&strings, &BUILT_IN), [false, true, true, false, true, false], "{bytes} bytes");
        assert_eq!(is_less(&strings, &turned), [true, false, true, false, true, false], "{bytes} bytes");
        // URIs by bytes, where B comes before a.
        for ranks in [&BUILT_IN[..], &turned] {
            assert_eq!(is_less(&uris, ranks), [true, false, true, false, true, false], "{bytes} bytes");
        }
        // Of one text, by tag.
        let tags = [tagged("en", &texts[0]), tagged("fr", &texts[0]), string(&texts[0])];
        assert_eq!(is_less(&tags, &BUILT_IN), [true, false, true, false, true, false], "{bytes} bytes");
    }
}

/// Equal looks at every byte, of strings and of URIs.
#[test]
fn equal_on_long_texts() {
    for bytes in LENGTHS {
        let texts = [ending(bytes, 'a'), ending(bytes, 'b'), "x".repeat(bytes - 1)];
        for listed in [texts.each_ref().map(|text| string(text)), texts.each_ref().map(|text| uri(text))] {
            let same = |other| holds(&listed, equal(con(0), con(other)), &BUILT_IN);
            assert_eq!([0, 1, 2].map(same), [true, false, false], "{bytes} bytes");
        }
    }
}

/// A pattern sees the whole text, from its first byte to its last.
#[test]
fn patterns_on_long_texts() {
    for bytes in LENGTHS {
        let listed = [string(&ending(bytes, 'y')), uri(&ending(bytes, 'y')), string(&"x".repeat(bytes))];
        let accepts = |pattern: &str| {
            let texts = [con(0), str(con(1)), con(2)];
            texts.map(|text| holds(&listed, regex(pattern, text), &BUILT_IN))
        };
        for pattern in ["y", "y$", "xy", "^x*y$"] {
            assert_eq!(accepts(pattern), [true, true, false], "{pattern}: {bytes} bytes");
        }
        assert_eq!(accepts("^x*$"), [false, false, true], "{bytes} bytes");
        assert_eq!(accepts("^x.*x$"), [false, false, true], "{bytes} bytes");
        assert_eq!(accepts("^y"), [false, false, false], "{bytes} bytes");
        assert_eq!(accepts("y."), [false, false, false], "{bytes} bytes");
        assert_eq!(accepts("^.*$"), [true, true, true], "{bytes} bytes");
    }
    // Sixteen pieces against the longest text: the star has to give back all but the last bytes.
    let text = string(&"ab".repeat(48));
    assert!(holds(&[text], regex("^a.*babababababab", con(0)), &BUILT_IN));
    assert!(!holds(&[text], regex("^a.*babababababba", con(0)), &BUILT_IN));
}

/// A script over a page of long texts, told apart by their last bytes, step by step; the station is stored and handed in again.
#[test]
fn saved_stores() {
    for bytes in LENGTHS {
        let [a, b] = ['a', 'b'].map(|last| ending(bytes, last));
        // Each $s 0 with the name $n 1, whose texts are the same.
        let named = pattern(con(0), var(0), con(3), var(1));
        let query = both(named, filter(equal(str(var(0)), str(var(1)))));
        let script = from_named(con(0), each(&[(0, 0), (1, 0)], query, success()));
        let mut s = Station::loaded(terms(&[uri("g:a")]), stock(), script);
        let name = |subject: &str, name: &str| triple(&fill(subject.as_bytes()), &fill(b"p:name"), &string(name));
        // Terms from 4 on: the URI of a, the string of b, that of a, the URI of b.
        assert_eq!(s.page(0, &[name(&a, &b), name(&a, &a), name(&b, &a)].concat()), Ok(0));
        assert_eq!(s.terms_in_use()[4..], [uri(&a), string(&b), string(&a), uri(&b)]);
        assert_eq!(s.run(2, 0), Ok((2, SPENT, 0)));
        assert_eq!([0, 1].map(|variable| s.bound(variable)), [Some(4), Some(6)]);
        let mut again = s.clone();
        assert_eq!(again.page(0, &[name(&a, &a), name(&b, &b)].concat()), Ok(0));
        assert_eq!(again.terms_in_use().len(), 8, "no term is new");
        assert_eq!(again.run(2, 0), Ok((2, SPENT, 0)));
        assert_eq!([0, 1].map(|variable| again.bound(variable)), [Some(7), Some(5)]);
        assert_eq!(again.run(9, 0), Ok((2, ENDED, 0)));
    }
}

/// Soundness looks at every byte of a slot and of the free ones.
#[test]
fn every_byte_of_a_slot_counts() {
    let full = "x".repeat(TEXT);
    let listed = [uri("g:a"), string(&full), uri(&full), Term::Int(0)];
    let mut s = Station::loaded(terms(&listed), stock(), success());
    assert_eq!(s.page(0, &triple(&fill(b"g:a"), &fill(b"p:name"), &string("short"))), Ok(0));
    let (loaded, used) = (listed.len() + 3, listed.len() + 4);
    assert_eq!(s.terms_in_use().len(), used);
    for at in (0..SLOT * (used + 1)).chain(TERM_TABLE - SLOT..TERM_TABLE) {
        let mut other = s.clone();
        other.term_table[at] ^= 1;
        // Of the string that the page brought, the text may be another one: its five bytes, after kind and tag.
        let text = SLOT * loaded + 1 + TAG;
        let expected = if (text..text + 5).contains(&at) { Ok((0, SPENT, 0)) } else { Err(10) };
        assert_eq!(other.run(0, 0), expected, "{at}");
    }
}

/// Two terms that differ in the last byte of their slots are two, and the same ones are one too many.
#[test]
fn slots_are_distinct_by_every_byte() {
    for (last, expected) in [(b'y', Ok((0, SPENT, 0))), (b'x', Err(10))] {
        let mut s = Station::loaded(terms(&[string(&"x".repeat(TEXT))]), stock(), success());
        s.term_table.copy_within(0..SLOT, 4 * SLOT);
        s.term_table[5 * SLOT - 1] = last;
        assert_eq!(s.run(0, 0), expected);
    }
}

/// The type printer takes long texts, and a card of 512 terms that are as long as they may be.
#[test]
fn the_printer() {
    let long = ending(TEXT, 'p');
    // A property of 96 bytes over dateTimes, by its number 1.
    let script = once(&[(0, 0)], pattern(con(0), con(0), con(1), var(0)), success());
    let input = [terms(&[uri(&ending(TEXT, 'g'))]), schema(&[(&long, Datatype::DateTime)]), script].concat();
    assert_eq!(second::print_types(&input), "accepted 1\n0 xsd:dateTime\n");
    // 512 terms in all, of the longest records.
    let strings: Vec<Term> = (0..384).map(|n| string(&format!("{n:0>TEXT$}"))).collect();
    let properties: Vec<String> = (0..128).map(|n| format!("{n:0>TEXT$}")).collect();
    let properties: Vec<(&str, Datatype)> = properties.iter().map(|text| (text.as_str(), Datatype::String)).collect();
    let input = [terms(&strings), schema(&properties), success()].concat();
    assert_eq!((input.len(), &*second::print_types(&input)), (384 * SLOT + 128 * ENTRY + 1, "accepted 0\n"));
}

/// The evaluator of tuples looks at long texts as a run does.
#[test]
fn the_evaluator() {
    let texts = [ending(TEXT, 'a'), ending(TEXT, 'b')];
    let listed = [string(&texts[0]), string(&texts[1]), uri(&texts[1])];
    let cond = node(0x53, &[less(var(0), var(1)), equal(var(1), str(con(2)))]);
    let s = Station::loaded(terms(&listed), vec![], once(&[(0, 2), (1, 2)], filter(cond), success()));
    let lengths = [&s.terms, &s.schema, &s.script].map(|part| (part.len() as u16).to_le_bytes()).concat();
    let lent = [&s.ranks, &lengths, &s.terms, &s.schema, &s.script, &s.term_table, &s.quad_table, &s.saved];
    let tuples: Vec<u8> =
        [[0, 1, 0, 0], [1, 0, 0, 0], [1, 1, 0, 0]].as_flattened().iter().flat_map(|n: &u16| n.to_le_bytes()).collect();
    let input = [lent.map(|part| &part[..]).concat(), 0i64.to_le_bytes().to_vec(), tuples].concat();
    // Filter, and, less; equal too where less is true.
    assert_eq!(second::evaluate(&input), "true 4\nfalse 3\nfalse 3\n");
}
