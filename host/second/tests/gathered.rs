//! Document 02, Ask 7: a schema out of a page. What each row expects is worked out from the documents by hand.

mod common;
use common::{Station, ENGINES};
use second::limits::{ENTRIES, ENTRY, PAGE, SCHEMA, SCHEMA_REPORT, TEXT};
use second::schema::Schema;
use second::term::{fill, Term, Uri};
use second::types::Datatype::{self, AnyUri, DateTime, Decimal, Integer, String as Text};
use second::write::{entry, node, string, tagged, triple, uri};

const RANGE: &str = "rdfs:range";
const TYPE: &str = "rdf:type";
/// What lent bytes are before a call, so that a byte left alone shows.
const LENT: u8 = 0xaa;

fn of(text: &str) -> Uri {
    fill(text.as_bytes())
}

fn record(subject: &str, property: &str, object: &Term) -> Vec<u8> {
    triple(&of(subject), &of(property), object)
}

/// A page of records whose objects are URIs.
fn page(records: &[[&str; 3]]) -> Vec<u8> {
    records.iter().flat_map(|[subject, property, object]| record(subject, property, &uri(object))).collect()
}

/// The entries' bytes and the count of subjects left out, or the refusal. Both engines must agree on every byte, what follows the entries must
/// be as it was, and all of it on a refusal.
fn gathered(page: &[u8]) -> Result<(Vec<u8>, u32), u32> {
    let [fast, plain] = ENGINES.map(|engine| {
        let (mut schema, mut report) = ([LENT; SCHEMA], [LENT; SCHEMA_REPORT]);
        let outcome = engine.schema(page, &mut schema, &mut report).map_err(|refusal| refusal.number);
        (outcome, schema, report)
    });
    assert_eq!(fast, plain);
    let (outcome, schema, report) = fast;
    if let Err(number) = outcome {
        assert_eq!((schema, report), ([LENT; SCHEMA], [LENT; SCHEMA_REPORT]), "{number}");
        return Err(number);
    }
    let [entries, left_out] = [&report[..4], &report[4..]].map(|bytes| u32::from_le_bytes(bytes.try_into().unwrap()));
    let (written, rest) = schema.split_at(entries as usize * ENTRY);
    assert!(rest.iter().all(|byte| *byte == LENT), "the rest is untouched");
    Ok((written.to_vec(), left_out))
}

/// What is expected, in words.
fn expected(entries: &[(&str, Datatype)], left_out: u32) -> Result<(Vec<u8>, u32), u32> {
    Ok((entries.iter().flat_map(|(text, datatype)| entry(&of(text), *datatype)).collect(), left_out))
}

/// A page's records, the entries, and how many subjects are left out.
type Row<'a> = (&'a [[&'a str; 3]], &'a [(&'a str, Datatype)], u32);

fn rows(rows: &[Row]) {
    for (records, entries, left_out) in rows {
        assert_eq!(gathered(&page(records)), expected(entries, *left_out), "{records:?}");
    }
}

/// The request's three rules, each alone.
#[test]
fn document_02() {
    rows(&[
        (&[["p:a", RANGE, "xsd:anyURI"]], &[("p:a", AnyUri)], 0),
        (&[["p:a", RANGE, "xsd:string"]], &[("p:a", Text)], 0),
        (&[["p:a", RANGE, "xsd:decimal"]], &[("p:a", Decimal)], 0),
        (&[["p:a", RANGE, "xsd:dateTime"]], &[("p:a", DateTime)], 0),
        (&[["p:a", RANGE, "xsd:integer"]], &[("p:a", Integer)], 0),
        (&[["p:a", RANGE, "c:Locomotive"]], &[("p:a", AnyUri)], 0),
        (&[["p:a", TYPE, "owl:ObjectProperty"]], &[("p:a", AnyUri)], 0),
        (&[], &[], 0),
    ]);
}

/// The bytes: kind, URI and datatype's code; in the report two numbers of four bytes, the lowest first.
#[test]
fn bytes_of_entries_and_report() {
    let records = [["p:a", RANGE, "xsd:dateTime"], ["p:b", RANGE, "xsd:string"], ["p:b", RANGE, "xsd:integer"]];
    for engine in ENGINES {
        let (mut schema, mut report) = ([LENT; SCHEMA], [LENT; SCHEMA_REPORT]);
        assert_eq!(engine.schema(&page(&records), &mut schema, &mut report), Ok(()));
        assert_eq!(report, [1, 0, 0, 0, 1, 0, 0, 0]);
        assert_eq!(schema[..4], [0x21, b'p', b':', b'a']);
        assert_eq!(schema[4..97], [0; 93]);
        assert_eq!(schema[97..100], [4, LENT, LENT]);
    }
    assert_eq!((ENTRY, SCHEMA, SCHEMA_REPORT), (98, 12_544, 8));
}

/// At least: integer alone stays integer, decimal above it takes it in; two families have nothing above both.
#[test]
fn the_least_that_meets_all() {
    let two = |a: &'static str, b: &'static str| [["p:a", RANGE, a], ["p:a", RANGE, b]];
    rows(&[
        (&two("xsd:integer", "xsd:integer"), &[("p:a", Integer)], 0),
        (&two("xsd:integer", "xsd:decimal"), &[("p:a", Decimal)], 0),
        (&two("xsd:decimal", "xsd:integer"), &[("p:a", Decimal)], 0),
        (&two("xsd:decimal", "xsd:decimal"), &[("p:a", Decimal)], 0),
        (&two("xsd:anyURI", "c:Locomotive"), &[("p:a", AnyUri)], 0),
        (&two("c:Locomotive", "c:Wagon"), &[("p:a", AnyUri)], 0),
    ]);
    let names = ["xsd:anyURI", "xsd:string", "xsd:decimal", "xsd:dateTime", "xsd:integer"];
    let together = |a, b| a == b || [a, b] == [2, 4] || [a, b] == [4, 2];
    for (a, b) in (0..5).flat_map(|a| (0..5).map(move |b| (a, b))).filter(|(a, b)| !together(*a, *b)) {
        assert_eq!(gathered(&page(&two(names[a], names[b]))), expected(&[], 1), "{} and {}", names[a], names[b]);
    }
    let object = ["p:a", TYPE, "owl:ObjectProperty"];
    for name in &names[1..] {
        assert_eq!(gathered(&page(&[object, ["p:a", RANGE, name]])), expected(&[], 1), "{name}");
        assert_eq!(gathered(&page(&[["p:a", RANGE, name], object])), expected(&[], 1), "{name}");
    }
    assert_eq!(gathered(&page(&[object, ["p:a", RANGE, "xsd:anyURI"]])), expected(&[("p:a", AnyUri)], 0));
}

/// A subject that is left out is counted once, however much is asked of it, and stays out whatever follows.
#[test]
fn left_out_once() {
    let asked = ["string", "integer", "decimal", "string", "dateTime", "anyURI", "string", "string"];
    let asked = asked.map(|name| format!("xsd:{name}"));
    let many: Vec<[&str; 3]> = asked.iter().map(|name| ["p:a", RANGE, name.as_str()]).collect();
    for count in 2..=many.len() {
        assert_eq!(gathered(&page(&many[..count])), expected(&[], 1), "{count} records");
    }
    // Two of them, and one between that gets its entry.
    rows(&[(
        &[
            ["p:a", RANGE, "xsd:string"],
            ["p:b", RANGE, "xsd:dateTime"],
            ["p:c", RANGE, "xsd:integer"],
            ["p:c", RANGE, "c:Number"],
            ["p:a", RANGE, "xsd:integer"],
        ],
        &[("p:b", DateTime)],
        2,
    )]);
}

/// Entries stand in the order of each subject's first asking record; what asks nothing is no first record.
#[test]
fn the_order_of_entries() {
    rows(&[
        (
            &[["p:b", RANGE, "xsd:string"], ["p:a", RANGE, "xsd:integer"], ["p:b", RANGE, "xsd:string"]],
            &[("p:b", Text), ("p:a", Integer)],
            0,
        ),
        (
            &[["p:b", TYPE, "rdf:Property"], ["p:a", RANGE, "xsd:integer"], ["p:b", RANGE, "xsd:string"]],
            &[("p:a", Integer), ("p:b", Text)],
            0,
        ),
        // The decimal comes late: the entry stays at the place of its first record.
        (
            &[["p:b", RANGE, "xsd:integer"], ["p:a", RANGE, "c:X"], ["p:b", RANGE, "xsd:decimal"]],
            &[("p:b", Decimal), ("p:a", AnyUri)],
            0,
        ),
    ]);
}

/// What asks nothing: other properties, another class, an object that is no URI; and no entry for whom nothing is asked.
#[test]
fn what_asks_nothing() {
    for [property, object] in [
        [TYPE, "rdf:Property"],
        [TYPE, "owl:DatatypeProperty"],
        [TYPE, "xsd:decimal"],
        ["rdfs:domain", "xsd:decimal"],
        ["rdfs:domain", "c:Locomotive"],
        ["owl:ObjectProperty", "rdf:type"],
        ["xsd:decimal", RANGE],
        ["p:speed", "owl:ObjectProperty"],
    ] {
        assert_eq!(gathered(&page(&[["p:a", property, object]])), expected(&[], 0), "{property} {object}");
    }
    for object in [string("xsd:decimal"), tagged("en", "xsd:decimal"), Term::Int(3), Term::Dec(3), Term::Time(3)] {
        assert_eq!(gathered(&record("p:a", RANGE, &object)), expected(&[], 0), "{object:?}");
        let other = [record("p:a", RANGE, &object), page(&[["p:a", RANGE, "xsd:integer"]])].concat();
        assert_eq!(gathered(&other), expected(&[("p:a", Integer)], 0), "{object:?}");
    }
    let class = string("owl:ObjectProperty");
    assert_eq!(gathered(&record("p:a", TYPE, &class)), expected(&[], 0));
}

/// Texts are compared whole and by case.
#[test]
fn texts_that_miss() {
    for property in ["rdfs:Range", "RDFS:range", "rdfs:rang", "rdfs:ranges", "rdfs:rangf", "rdf:range", "dfs:range"] {
        assert_eq!(gathered(&page(&[["p:a", property, "xsd:decimal"]])), expected(&[], 0), "{property}");
    }
    for (property, object) in [
        ("rdf:Type", "owl:ObjectProperty"),
        ("rdf:typ", "owl:ObjectProperty"),
        ("rdf:types", "owl:ObjectProperty"),
        ("rdfs:type", "owl:ObjectProperty"),
        (TYPE, "owl:objectProperty"),
        (TYPE, "owl:ObjectPropert"),
        (TYPE, "owl:ObjectPropertys"),
        (TYPE, "OWL:ObjectProperty"),
    ] {
        assert_eq!(gathered(&page(&[["p:a", property, object]])), expected(&[], 0), "{property} {object}");
    }
    for object in ["xsd:Decimal", "xsd:decima", "xsd:decimals", "XSD:decimal", "xsd:decimam", "sd:decimal", "xsd:int"] {
        assert_eq!(gathered(&page(&[["p:a", RANGE, object]])), expected(&[("p:a", AnyUri)], 0), "{object}");
    }
}

/// Texts of 96 bytes that begin with a word are other texts; subjects are told apart at their last byte.
#[test]
fn texts_of_96_bytes() {
    let long = |word: &str| format!("{word:x<TEXT$}");
    let [range, class, datatype] = [RANGE, "owl:ObjectProperty", "xsd:decimal"].map(long);
    assert_eq!(gathered(&page(&[["p:a", &range, "xsd:decimal"]])), expected(&[], 0));
    assert_eq!(gathered(&page(&[["p:a", &long(TYPE), "owl:ObjectProperty"]])), expected(&[], 0));
    assert_eq!(gathered(&page(&[["p:a", TYPE, &class]])), expected(&[], 0));
    assert_eq!(gathered(&page(&[["p:a", RANGE, &datatype]])), expected(&[("p:a", AnyUri)], 0));
    let [one, other] = ["p:a", "p:b"].map(|text| format!("{:->96}", text));
    let records = [[one.as_str(), RANGE, "xsd:string"], [other.as_str(), RANGE, "xsd:integer"]];
    assert_eq!(gathered(&page(&records)), expected(&[(&one, Text), (&other, Integer)], 0));
}

/// So many subjects, each with one record.
fn many(count: usize, property: &str, object: &str) -> Vec<u8> {
    (0..count).flat_map(|n| record(&format!("p:{n}"), property, &uri(object))).collect()
}

/// 128 entries fill the buffer, a 129th is refused; those that are left out, or of which nothing is asked, take no room.
#[test]
fn room_for_128() {
    let all: Vec<u8> = (0..ENTRIES).flat_map(|n| entry(&of(&format!("p:{n}")), Integer)).collect();
    assert_eq!(gathered(&many(127, RANGE, "xsd:integer")), Ok((all[..127 * ENTRY].to_vec(), 0)));
    assert_eq!(gathered(&many(128, RANGE, "xsd:integer")), Ok((all.clone(), 0)));
    for count in [129, 130, 226] {
        assert_eq!(gathered(&many(count, RANGE, "xsd:integer")), Err(19), "{count}");
    }
    let last = |n: usize, object: &str| record(&format!("p:{n}"), RANGE, &uri(object));
    // The 129th subject is asked for a string too, in the end: left out, and the others fit.
    let fits = [many(129, RANGE, "xsd:integer"), last(128, "xsd:string")].concat();
    assert_eq!(gathered(&fits), Ok((all.clone(), 1)));
    // The first one is: all others stand one place further to the front.
    let fits = [many(129, RANGE, "xsd:integer"), last(0, "xsd:string")].concat();
    let others = [&all[ENTRY..], &entry(&of("p:128"), Integer)].concat();
    assert_eq!(gathered(&fits), Ok((others, 1)));
    // 130 subjects of which one is left out are still too many.
    assert_eq!(gathered(&[many(130, RANGE, "xsd:integer"), last(128, "xsd:string")].concat()), Err(19));
    // Subjects of which nothing is asked.
    let fits = [many(90, "rdfs:domain", "c:X"), many(128, RANGE, "xsd:integer")].concat();
    assert_eq!(gathered(&fits), Ok((all, 0)));
    // 113 subjects, all left out.
    let out = [many(113, RANGE, "xsd:string"), many(113, RANGE, "xsd:integer")].concat();
    assert_eq!(gathered(&out), expected(&[], 113));
}

/// 65,536 bytes are taken and one more is not: 289 a + 297 b + 201 c bytes for records of kinds 81, 82 and 83.
#[test]
fn the_longest_page() {
    let of_sizes = |[uris, strings, numbers]: [usize; 3]| {
        let others = (0..strings).map(|_| record("p:0", RANGE, &string("x")));
        let others = others.chain((0..numbers).map(|_| record("p:0", RANGE, &Term::Int(1))));
        [many(uris, RANGE, "xsd:integer"), others.collect::<Vec<_>>().concat()].concat()
    };
    let (uris, strings, numbers) = sizes(PAGE);
    let full = of_sizes([uris, strings, numbers]);
    assert_eq!(full.len(), PAGE);
    assert_eq!(gathered(&full).map(|(entries, left_out)| (entries.len(), left_out)), Ok((uris * ENTRY, 0)));
    let (uris, strings, numbers) = sizes(PAGE + 1);
    let over = of_sizes([uris, strings, numbers]);
    assert_eq!(over.len(), PAGE + 1);
    assert_eq!(gathered(&over), Err(13));
}

/// How many records of 289, 297 and 201 bytes make up so many, of at most 128 of the first.
fn sizes(bytes: usize) -> (usize, usize, usize) {
    let fits = |uris: usize| {
        let strings = (0..=bytes / 297).find(|s| {
            let taken = 289 * uris + 297 * s;
            taken <= bytes && (bytes - taken).is_multiple_of(201)
        })?;
        Some((uris, strings, (bytes - 289 * uris - 297 * strings) / 201))
    };
    (1..=ENTRIES).rev().find_map(fits).expect("some numbers of records make up every large number")
}

/// Bad records meet 13, also ones that would ask nothing, and before 19; 1 comes before both.
#[test]
fn refusals() {
    let good = page(&[["p:a", RANGE, "xsd:string"]]);
    assert_eq!(gathered(&[0x81]), Err(13));
    assert_eq!(gathered(&good[..good.len() - 1]), Err(13));
    assert_eq!(gathered(&[&good[..], &[0]].concat()), Err(13));
    assert_eq!(gathered(&[&good[..], &good[..200]].concat()), Err(13));
    for (at, byte) in [(0, 0x80), (0, 0x86), (0, 0x21), (0, 0x11), (1, 0), (2, b' '), (50, b'x'), (97, 0), (193, 0)] {
        let mut bad = [&good[..], &good].concat();
        bad[good.len() + at] = byte;
        assert_eq!(gathered(&bad), Err(13), "{at} {byte:02x}");
    }
    let mut number = record("p:b", "p:c", &Term::Int(0));
    number[193..].fill(0xff);
    assert_eq!(gathered(&[&good[..], &number].concat()), expected(&[("p:a", Text)], 0), "minus one is good");
    number[200] = 0x7f;
    assert_eq!(gathered(&[&good[..], &number].concat()), Err(13));
    let too_many = many(129, RANGE, "xsd:integer");
    assert_eq!(gathered(&[&too_many[..], &[0x81]].concat()), Err(13));
    for (schema, report) in [
        (0, 8),
        (5376, 8),
        (SCHEMA - 1, 8),
        (SCHEMA + 1, 8),
        (ENTRY, 8),
        (SCHEMA, 0),
        (SCHEMA, 4),
        (SCHEMA, 7),
        (SCHEMA, 9),
    ] {
        for page in [&good, &too_many, &vec![0x81]] {
            for engine in ENGINES {
                let (mut entries, mut told) = (vec![LENT; schema], vec![LENT; report]);
                let outcome = engine.schema(page, &mut entries, &mut told).map_err(|refusal| refusal.number);
                assert_eq!((outcome, entries, told), (Err(1), vec![LENT; schema], vec![LENT; report]));
            }
        }
    }
}

/// What is written is a schema: a load takes it.
#[test]
fn a_load_takes_what_is_written() {
    let records = [
        ["p:b", RANGE, "xsd:integer"],
        ["p:a", TYPE, "owl:ObjectProperty"],
        ["p:c", RANGE, "xsd:string"],
        ["p:c", RANGE, "xsd:dateTime"],
        ["p:b", RANGE, "xsd:decimal"],
    ];
    let (written, left_out) = gathered(&page(&records)).unwrap();
    assert_eq!(left_out, 1);
    let schema = Schema::read(&written).unwrap();
    assert_eq!(schema.properties, [of("p:b"), of("p:a")]);
    assert_eq!((schema.datatype(&of("p:b")), schema.datatype(&of("p:a"))), (Some(Decimal), Some(AnyUri)));
    let (full, _) = gathered(&many(128, RANGE, "xsd:integer")).unwrap();
    assert_eq!(Station::new(Vec::new(), full, node(0x71, &[])).load(), 0);
}
