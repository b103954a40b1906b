//! Document 02, Ask 6: "Old tables meet refusal 1, and old schema records and pages are read by the new lengths and refused where these
//! don't fit." Records of before had texts of 40 bytes; all else in them was as it is.

mod common;
use common::{stock, Station};
use second::edge::OLD_TEXT;
use second::limits::{SLOT, TAG, TERMS, TERM_TABLE};
use second::term::{fill, Term};
use second::types::Datatype;
use second::write::*;

/// The body of a term's record of before.
fn old_body(term: &Term) -> Bytes {
    match term {
        Term::Uri(text) => text[..OLD_TEXT].to_vec(),
        Term::Str(tag, text) => [&tag[..], &text[..OLD_TEXT]].concat(),
        _ => term.record()[1..].to_vec(),
    }
}

fn old_record(term: &Term) -> Bytes {
    [vec![term.kind()], old_body(term)].concat()
}

fn old_terms(list: &[Term]) -> Bytes {
    list.iter().flat_map(old_record).collect()
}

fn old_entry(property: &str, datatype: Datatype) -> Bytes {
    [&[0x21], &fill::<OLD_TEXT>(property.as_bytes())[..], &[datatype as u8]].concat()
}

fn old_triple(subject: &str, property: &str, object: &Term) -> Bytes {
    let [subject, property] = [subject, property].map(|text| fill::<OLD_TEXT>(text.as_bytes()));
    [&[object.kind() + 0x70], &subject[..], &property, &old_body(object)].concat()
}

/// A term table of before with these terms.
fn old_table(list: &[Term]) -> Bytes {
    let mut table = vec![0; TERMS * (1 + TAG + OLD_TEXT)];
    for (term, slot) in list.iter().zip(table.chunks_mut(1 + TAG + OLD_TEXT)) {
        let record = old_record(term);
        slot[..record.len()].copy_from_slice(&record);
    }
    table
}

fn load(terms: Vec<u8>, schema: Vec<u8>) -> u32 {
    Station::new(terms, schema, success()).load()
}

/// As they were in document 01.
#[test]
fn the_widths_of_before() {
    let widths = [uri("u"), string("s"), Term::Int(0)].map(|term| {
        let page = old_triple("u", "p", &term);
        (old_record(&term).len(), page.len())
    });
    assert_eq!(widths, [(41, 121), (49, 129), (9, 89)]);
    assert_eq!((old_entry("p", Datatype::String).len(), old_table(&[]).len()), (42, 25_088));
}

/// Texts that left room in the field of before, and one that filled it.
fn texts() -> [String; 3] {
    ["u".to_string(), "http://club.example/yard".to_string(), "x".repeat(OLD_TEXT)]
}

/// Wherever a URI or a string stands, what follows it stands in its text or is missing: 2. Numbers are as they were.
#[test]
fn terms_of_before() {
    let numbers = [Term::Int(3), Term::Dec(-1), Term::Time(0)];
    assert_eq!(old_terms(&numbers), terms(&numbers));
    assert_eq!(load(old_terms(&numbers), vec![]), 0);
    for text in texts() {
        for term in [uri(&text), string(&text), tagged("abcdefgh", &text), string("")] {
            for after in 0..4 {
                let rest = [uri("u:a"), string("a"), Term::Int(7), tagged("en", ""), uri("u:b")];
                let listed = [&numbers[..], &[term], &rest[..after + 1]].concat();
                assert_eq!(load(terms(&listed), vec![]), 0);
                assert_eq!(load(old_terms(&listed), vec![]), 2, "{term:?} and {after} more");
                assert_eq!(load(old_terms(&[&[term], &rest[..after]].concat()), vec![]), 2);
            }
        }
    }
    // Many of them, so that the record of now ends among them.
    let many: Vec<Term> = (0..100).map(|n| uri(&format!("http://club.example/loco/{n}"))).collect();
    assert_eq!((load(old_terms(&many), vec![]), load(terms(&many), vec![])), (2, 0));
}

/// The datatype of an old entry stands in the URI of the new one, and no URI has such a byte: 4, or 2 where the terms are old too.
#[test]
fn schemas_of_before() {
    for text in texts() {
        for datatype in Datatype::ALL {
            for more in 0..5 {
                let others = (0..more).flat_map(|n| old_entry(&format!("p:{n}"), Datatype::String));
                let schema: Bytes = old_entry(&text, datatype).into_iter().chain(others).collect();
                assert_eq!(load(vec![], schema.clone()), 4, "{text} and {more} more");
                assert_eq!(load(terms(&[uri("u:a")]), schema.clone()), 4);
                assert_eq!(load(old_terms(&[uri("u:a")]), schema), 2);
            }
        }
    }
    // As many as there may be, and a new one before an old one.
    let many: Bytes = (0..128).flat_map(|n| old_entry(&format!("p:{n}"), Datatype::String)).collect();
    assert_eq!(load(vec![], many), 4);
    assert_eq!(load(vec![], [stock(), old_entry("p:old", Datatype::String)].concat()), 4);
    assert_eq!(load(vec![], old_entry("p:old", Datatype::String).repeat(2)), 4, "before 5");
}

/// A station with term 0 the graph; then p:speed 1, p:addr 2, p:name 3.
fn station() -> Station {
    let query = pattern(con(0), var(0), con(3), var(1));
    let script = from_named(con(0), each(&[(0, 0), (1, 0)], query, success()));
    Station::loaded(terms(&[uri("g:stock")]), stock(), script)
}

/// Where a second record follows, its kind stands in a text of the first; where none does, the first is cut off: 13.
#[test]
fn pages_of_before() {
    let mut s = station();
    for subject in texts() {
        for property in texts() {
            for text in texts() {
                for object in
                    [uri(&text), tagged("abcdefgh", &text), string(&text), string(""), Term::Int(0), Term::Dec(1)]
                {
                    let record = old_triple(&subject, &property, &object);
                    for count in [1, 2, 3, 7] {
                        assert_eq!(s.page(0, &record.repeat(count)), Err(13), "{count} of {record:02x?}");
                    }
                    let good = triple(&fill(subject.as_bytes()), &fill(property.as_bytes()), &object);
                    assert_eq!(s.page(0, &good), Ok(1), "no such property");
                    assert_eq!(s.page(0, &[good, record].concat()), Err(13), "a new record before an old one");
                }
            }
        }
    }
    assert_eq!(s.page(0, &[]), Ok(0), "a page without a record has no width");
}

/// 1, in load, run and page, before all else; nothing is changed.
#[test]
fn tables_of_before() {
    let listed = [uri("g:stock"), uri("p:speed"), uri("p:addr"), uri("p:name")];
    let mut s = station();
    assert_eq!(s.terms_in_use(), listed);
    s.term_table = old_table(&listed);
    assert_eq!((s.load(), s.run(0, 0), s.page(0, &[])), (1, Err(1), Err(1)));
    // Before 21, 2, 10 and 13.
    let [mut ranks, mut terms, mut saved] = [0; 3].map(|_| s.clone());
    ranks.ranks.fill(0);
    terms.terms = vec![0x16];
    saved.saved.fill(0xff);
    for mut other in [ranks, terms, saved] {
        assert_eq!((other.load(), other.run(0, 0), other.page(0, &[0x81])), (1, Err(1), Err(1)));
    }
    // A whole station of before: card, tables and saved run as they were.
    s.terms = old_terms(&listed[..1]);
    s.schema = [("p:speed", Datatype::Decimal), ("p:addr", Datatype::Integer), ("p:name", Datatype::String)]
        .iter()
        .flat_map(|(property, datatype)| old_entry(property, *datatype))
        .collect();
    assert_eq!((s.load(), s.run(0, 0), s.page(0, &[])), (1, Err(1), Err(1)));
    // Loaded again, from a card of now, it is as if it had never been.
    assert_eq!(station().run(0, 0), Ok((0, 1, 0)));
}

/// An old table in a buffer of the new length is read by the new slots: 10.
#[test]
fn slots_of_before() {
    let listed = [uri("g:stock"), uri("p:speed"), uri("p:addr"), uri("p:name")];
    let mut s = station();
    s.term_table = old_table(&listed);
    s.term_table.resize(TERM_TABLE, 0);
    assert_eq!((s.run(0, 0), s.page(0, &[])), (Err(10), Err(10)));
    assert_eq!(s.load(), 0, "what the tables held before means nothing to a load");
    assert_eq!(s.run(0, 0), Ok((0, 1, 0)));
    // One term alone stands where it stood, and is as long as it was.
    let mut s = Station::loaded(terms(&listed[..1]), vec![], from_named(con(0), success()));
    s.term_table = old_table(&listed[..1]);
    s.term_table.resize(TERM_TABLE, 0);
    assert_eq!(s.run(0, 0), Ok((0, 1, 0)));
    assert_eq!(s.term_table[..SLOT], listed[0].slot());
}

/// A card of before does not load, so that a run and a page that are lent it meet 10.
#[test]
fn cards_of_before_after_a_load() {
    let old_schema = |s: &mut Station| s.schema = old_entry("p:name", Datatype::String);
    let old_terms = |s: &mut Station| s.terms = old_terms(&[uri("g:stock")]);
    for change in [&old_schema as &dyn Fn(&mut Station), &old_terms] {
        let mut s = station();
        change(&mut s);
        assert_eq!((s.run(0, 0), s.page(0, &[])), (Err(10), Err(10)));
        assert_eq!((s.run(60_001, 0), s.page(9, &[0x81])), (Err(10), Err(10)));
    }
}

/// The type printer reads a card of before by the new lengths too.
#[test]
fn the_printer() {
    let printed = |parts: [Bytes; 3]| second::print_types(&parts.concat());
    let query = pattern(con(0), con(0), con(1), var(0));
    let script = once(&[(0, 0)], query, success());
    let new = [terms(&[uri("g:a")]), schema(&[("p:name", Datatype::String)]), script.clone()];
    assert_eq!(printed(new), "accepted 1\n0 xsd:string\n");
    let [old_terms, old_schema] = [old_terms(&[uri("g:a")]), old_entry("p:name", Datatype::String)];
    assert_eq!(printed([old_terms, old_schema.clone(), script.clone()]), "refused 2\n");
    assert_eq!(printed([terms(&[uri("g:a")]), old_schema, script]), "refused 4\n");
}
