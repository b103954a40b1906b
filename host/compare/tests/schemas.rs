//! Pages that a schema is gathered from: engines that gather otherwise are found, also where two of them are wrong alike, by what each owes by itself.

use compare::call::engine::{fast, plain, Second, Ways};
use compare::call::schema::{Entries, Gathered as Given, SchemaPage};
use compare::call::Engine;
use compare::draw::schemas::page;
use compare::judge::Breach;
use compare::run::Plan;
use second::gather::{self, asked, Gathered, Gathering};
use second::page::{read, Triple};
use second::seek::Seek;
use second::term::{fill, trim, Term, Uri};
use second::types::Datatype::{self, AnyUri, Decimal, Integer};
use second::write::{entry, string, triple, uri};
use willetcoffer::limits::{ENTRY_LIMIT, ENTRY_WIDTH, PAGE_LIMIT, SCHEMA_REPORT_WIDTH, SCHEMA_WIDTH};
use wrong::{breach_of, compare, each_found, Gathers, How, Instead, FAST};

mod wrong;

const SEED: u64 = 19;
/// Enough for each wrong engine; the gate has ten times as many.
const PAGES: u64 = 2_000;

/// The first breach.
fn breach(engines: [&dyn Engine; 2]) -> Option<Breach> {
    breach_of::<SchemaPage>(SEED, PAGES, engines)
}

fn gathering(gathering: Gathering) -> Second<Seek> {
    fast().by(Ways { gathering, ..Ways::FAST })
}

/// Each is found against the right one, and by this breach where both gather so.
fn found(alike: Breach, wrong: &[(&str, Gathering)]) {
    each_found(breach, wrong.iter().map(|(name, wrong)| (*name, gathering(*wrong), alike)));
}

#[test]
fn the_right_ways_pass() {
    assert_eq!(breach([&fast(), &plain()]), None);
}

/// What is asked, as somebody reads it.
type Asking = fn(&Triple) -> Option<Datatype>;

/// The subjects of which something is asked, each with all of it, by another reading.
fn subjects(triples: &[Triple], asking: Asking) -> Vec<(Uri, Vec<Datatype>)> {
    let mut all: Vec<(Uri, Vec<Datatype>)> = Vec::new();
    for (triple, datatype) in triples.iter().filter_map(|triple| Some((triple, asking(triple)?))) {
        match all.iter_mut().find(|(subject, _)| *subject == triple.subject) {
            Some((_, asked)) => asked.push(datatype),
            None => all.push((triple.subject, vec![datatype])),
        }
    }
    all
}

/// Gathered by another choice of the datatype.
fn chosen(triples: &[Triple], asking: Asking, choose: fn(&[Datatype]) -> Option<Datatype>) -> Gathered {
    let all = subjects(triples, asking);
    let entries: Vec<_> = all.iter().filter_map(|(subject, asked)| Some((*subject, choose(asked)?))).collect();
    Gathered { left_out: all.len() - entries.len(), entries }
}

/// The right choice.
fn least(asked: &[Datatype]) -> Option<Datatype> {
    let above = |one: &Datatype| asked.iter().all(|other| other.le(*one));
    asked.iter().copied().find(above)
}

fn is_number(datatype: Datatype) -> bool {
    [Integer, Decimal].contains(&datatype)
}

/// Another datatype is chosen for what is asked.
#[test]
fn other_choices() {
    fn forgetting(asked: &[Datatype]) -> Option<Datatype> {
        let mut so_far = None;
        for next in asked {
            so_far = so_far.map_or(Some(*next), |one| least(&[one, *next]));
        }
        so_far
    }
    let wrong: [(&str, Gathering); 8] = [
        ("integer for integer and decimal", |t| {
            chosen(t, asked, |all| least(all).map(|one| if all.contains(&Integer) { Integer } else { one }))
        }),
        ("none for integer and decimal", |t| {
            chosen(t, asked, |all| all.iter().all(|one| *one == all[0]).then_some(all[0]))
        }),
        ("decimal for integer", |t| {
            chosen(t, asked, |all| least(all).map(|one| if one == Integer { Decimal } else { one }))
        }),
        ("the first that is asked", |t| chosen(t, asked, |all| all.first().copied())),
        ("the last that is asked", |t| chosen(t, asked, |all| all.last().copied())),
        ("the greatest for what does not go together", |t| {
            chosen(t, asked, |all| least(all).or(all.iter().copied().max_by_key(|one| *one as u8)))
        }),
        ("anyURI above all", |t| chosen(t, asked, |all| least(all).or(Some(AnyUri)))),
        ("a third demand forgets two that do not go together", |t| chosen(t, asked, forgetting)),
    ];
    found(Breach::Written, &wrong);
    assert_eq!(breach([&gathering(|t| chosen(t, asked, least)), &fast()]), None, "the helpers are right");
}

/// Subjects that are left out are counted otherwise.
#[test]
fn other_counts() {
    fn counted(triples: &[Triple], count: fn(&[Datatype]) -> usize) -> Gathered {
        let all = subjects(triples, asked);
        let left_out = all.iter().filter(|(_, asked)| least(asked).is_none()).map(|(_, asked)| count(asked)).sum();
        Gathered { left_out, ..gather::plain(triples) }
    }
    let wrong: [(&str, Gathering); 4] = [
        ("not counted", |t| counted(t, |_| 0)),
        ("counted for each record after the first", |t| counted(t, |asked| asked.len() - 1)),
        ("counted for each record that does not go with the first", |t| {
            counted(t, |asked| asked.iter().filter(|one| **one != asked[0]).count())
        }),
        ("counted twice if decimals and integers are among it", |t| {
            counted(t, |asked| 1 + usize::from(asked.iter().any(|one| is_number(*one))))
        }),
    ];
    for (name, wrong) in wrong {
        assert_eq!(breach([&fast(), &gathering(wrong)]), Some(Breach::Answers), "{name}");
        let alike = breach([&gathering(wrong), &gathering(wrong)]);
        assert!(matches!(alike, Some(Breach::Written | Breach::Entries)), "{name}, both: {alike:?}");
    }
    let still: Gathering = |t| {
        let all = subjects(t, asked);
        let entries = all.iter().map(|(subject, asked)| (*subject, least(asked).unwrap_or(asked[0]))).collect();
        Gathered { entries, ..gather::plain(t) }
    };
    assert_eq!(breach([&fast(), &gathering(still)]), Some(Breach::Answers), "left out, with an entry");
    let alike = breach([&gathering(still), &gathering(still)]);
    assert!(matches!(alike, Some(Breach::Entries | Breach::Written)), "left out, with an entry, both: {alike:?}");
}

/// Entries in another order.
#[test]
fn other_orders() {
    fn ordered(triples: &[Triple], place: fn(&[Triple], &Uri) -> Option<usize>) -> Gathered {
        let mut gathered = gather::plain(triples);
        gathered.entries.sort_by_key(|(subject, _)| place(triples, subject));
        gathered
    }
    let wrong: [(&str, Gathering); 5] = [
        ("by first records", |t| ordered(t, |t, one| t.iter().position(|triple| triple.subject == *one))),
        ("by last records", |t| ordered(t, |t, one| t.iter().rposition(|triple| triple.subject == *one))),
        ("by last asking records", |t| {
            ordered(t, |t, one| t.iter().rposition(|triple| triple.subject == *one && asked(triple).is_some()))
        }),
        ("by bytes", |t| {
            let mut gathered = gather::plain(t);
            gathered.entries.sort_by_key(|(subject, _)| *subject);
            gathered
        }),
        ("turned round", |t| {
            let mut gathered = gather::plain(t);
            gathered.entries.reverse();
            gathered
        }),
    ];
    found(Breach::Written, &wrong);
}

fn object(triple: &Triple) -> Option<&[u8]> {
    match &triple.object {
        Term::Uri(text) => Some(trim(text)),
        _ => None,
    }
}

/// What would be asked with these texts in their places.
fn as_if(triple: &Triple, property: &[u8], object: &[u8]) -> Option<Datatype> {
    asked(&Triple { property: fill(property), object: Term::Uri(fill(object)), ..*triple })
}

/// Gathered as if some records were others.
fn mapped(triples: &[Triple], other: impl Fn(&Triple) -> Triple) -> Gathered {
    gather::plain(&triples.iter().map(other).collect::<Vec<_>>())
}

/// The word that a text stands for, by another comparison.
fn word(text: &[u8], is: fn(&[u8], &[u8]) -> bool) -> &[u8] {
    const WORDS: [&[u8]; 3] = [b"rdfs:range", b"rdf:type", b"owl:ObjectProperty"];
    let names = Datatype::ALL.map(|datatype| datatype.name().as_bytes());
    WORDS.into_iter().chain(names).find(|word| is(text, word)).unwrap_or(text)
}

/// Other records ask, or some do not.
#[test]
fn other_records_ask() {
    let wrong: [(&str, Gathering); 7] = [
        ("another URI asks nothing", |t| {
            chosen(t, |one| asked(one).filter(|d| *d != AnyUri || object(one) != Some(b"xsd:anyURI")), least)
        }),
        ("a range that is no datatype asks nothing", |t| {
            let named = |text: &[u8]| Datatype::ALL.iter().any(|one| one.name().as_bytes() == text);
            let of_datatype: Vec<Triple> = t
                .iter()
                .filter(|one| trim(&one.property) != b"rdfs:range" || object(one).is_some_and(named))
                .copied()
                .collect();
            gather::plain(&of_datatype)
        }),
        ("any rdf:type asks", |t| {
            chosen(t, |one| asked(one).or((trim(&one.property) == b"rdf:type").then_some(AnyUri)), least)
        }),
        ("any rdf:type with a URI asks", |t| {
            let type_of = |one: &Triple| trim(&one.property) == b"rdf:type" && object(one).is_some();
            mapped(t, |one| if type_of(one) { Triple { object: uri("owl:ObjectProperty"), ..*one } } else { *one })
        }),
        ("no rdf:type asks", |t| chosen(t, |one| asked(one).filter(|_| trim(&one.property) == b"rdfs:range"), least)),
        ("rdf:type with a datatype asks for it", |t| {
            chosen(t, |one| asked(one).or(as_if(one, b"rdfs:range", object(one)?).filter(|d| *d != AnyUri)), least)
        }),
        ("any property with a datatype asks", |t| {
            let property = |one: &Triple| trim(&one.property) != b"rdf:type";
            let datatype = |one: &Triple| object(one).is_some_and(|text| text.starts_with(b"xsd:"));
            mapped(t, |one| {
                let range = property(one) && datatype(one);
                Triple { property: if range { fill(b"rdfs:range") } else { one.property }, ..*one }
            })
        }),
    ];
    found(Breach::Written, &wrong);
}

/// Objects that are no URIs ask.
#[test]
fn literals_ask() {
    let wrong: [(&str, Gathering); 3] = [
        ("a string asks", |t| {
            chosen(
                t,
                |one| match &one.object {
                    Term::Str(_, text) => as_if(one, trim(&one.property), trim(text)),
                    _ => asked(one),
                },
                least,
            )
        }),
        ("an untagged string asks for a string", |t| {
            let range = |one: &Triple| trim(&one.property) == b"rdfs:range";
            let is_string = |one: &Triple| matches!(one.object, Term::Str(tag, _) if tag[0] == 0);
            let asks = |one: &Triple| range(one) && is_string(one);
            mapped(t, |one| if asks(one) { Triple { object: uri("xsd:string"), ..*one } } else { *one })
        }),
        ("a number as range asks for anyURI", |t| {
            chosen(t, |one| asked(one).or((trim(&one.property) == b"rdfs:range").then_some(AnyUri)), least)
        }),
    ];
    found(Breach::Written, &wrong);
}

/// Texts compared otherwise.
#[test]
fn other_texts_are_taken() {
    fn compared(t: &[Triple], is: fn(&[u8], &[u8]) -> bool) -> Gathered {
        let other = |one: &Triple| {
            let object = match &one.object {
                Term::Uri(text) => Term::Uri(fill(word(trim(text), is))),
                other => *other,
            };
            Triple { property: fill(word(trim(&one.property), is)), object, subject: one.subject }
        };
        mapped(t, other)
    }
    let wrong: [(&str, Gathering); 6] = [
        ("case is not looked at", |t| compared(t, |text, word| text.eq_ignore_ascii_case(word))),
        ("a text that begins with a word", |t| compared(t, |text, word| text.starts_with(word))),
        ("a text that a word begins with", |t| compared(t, |text, word| word.starts_with(text) && text.len() > 6)),
        ("a byte more", |t| compared(t, |text, word| text.starts_with(word) && text.len() <= word.len() + 1)),
        ("all but the first byte", |t| compared(t, |text, word| text[1..] == word[1..])),
        ("all but the last byte", |t| {
            compared(t, |text, word| text.len() == word.len() && text[..word.len() - 1] == word[..word.len() - 1])
        }),
    ];
    found(Breach::Written, &wrong);
}

/// Subjects compared otherwise.
#[test]
fn other_subjects_are_the_same() {
    /// Subjects of which so much is the same are one.
    fn by(t: &[Triple], from: usize, to: usize) -> Gathered {
        let first = |one: &Triple| t.iter().find(|other| other.subject[from..to] == one.subject[from..to]);
        let same = |one: &Triple| Triple { subject: first(one).map_or(one.subject, |first| first.subject), ..*one };
        mapped(t, same)
    }
    let wrong: [(&str, Gathering); 4] = [
        ("40 bytes of a subject", |t| by(t, 0, 40)),
        ("95 bytes of a subject", |t| by(t, 0, 95)),
        ("all but the first byte of a subject", |t| by(t, 1, 96)),
        ("eight bytes of a subject", |t| by(t, 0, 8)),
    ];
    found(Breach::Written, &wrong);
}

/// Each is found against the right one, and by this breach where both are so.
fn found_other(wrong: &[(&str, Gathers, Breach)]) {
    each_found(breach, wrong.iter().map(|(name, schema, alike)| (*name, Instead { schema: *schema, ..FAST }, *alike)));
}

/// The right call; where it gives this number, schema and report are altered.
fn altered(lent: (&[u8], &mut [u8], &mut [u8]), number: u32, alter: fn(&mut [u8], &mut [u8])) -> u32 {
    let (page, schema, report) = lent;
    let code = fast().schema(page, schema, report);
    if code == number {
        alter(schema, report);
    }
    code
}

/// How many entries a report counts.
fn count(report: &[u8]) -> usize {
    report.first().copied().unwrap_or(0).into()
}

#[test]
fn wrong_bytes_are_found() {
    found_other(&[
        ("the rest zeroed", |p, s, r| altered((p, s, r), 0, |s, r| s[count(r) * ENTRY_WIDTH..].fill(0)), Breach::Rest),
        (
            "an entry more, not counted",
            |p, s, r| {
                altered((p, s, r), 0, |s, r| {
                    let end = count(r) * ENTRY_WIDTH;
                    s[end..].iter_mut().take(ENTRY_WIDTH).for_each(|byte| *byte = 0x21);
                })
            },
            Breach::Rest,
        ),
        ("report touched on 13", |p, s, r| altered((p, s, r), 13, |_, r| r.fill(0)), Breach::Kept),
        ("report touched on 19", |p, s, r| altered((p, s, r), 19, |_, r| r[0] = 129), Breach::Kept),
        ("report touched on 1", |p, s, r| altered((p, s, r), 1, |_, r| r.fill(0)), Breach::Kept),
        ("schema touched on 13", |p, s, r| altered((p, s, r), 13, |s, _| s[0] = 0x21), Breach::Kept),
        ("schema touched on 19", |p, s, r| altered((p, s, r), 19, |s, _| s.fill(0x21)), Breach::Kept),
    ]);
}

/// Entries or counts that are others.
#[test]
fn wrong_entries_are_found() {
    found_other(&[
        ("the counts exchanged", |p, s, r| altered((p, s, r), 0, |_, r| r.rotate_left(4)), Breach::Rest),
        ("the highest byte first", |p, s, r| altered((p, s, r), 0, |_, r| r[..4].reverse()), Breach::Entries),
        (
            "a term's kind",
            |p, s, r| altered((p, s, r), 0, |s, r| s[0] = if count(r) > 0 { 0x11 } else { s[0] }),
            Breach::Entries,
        ),
        (
            "an entry twice",
            |p, s, r| {
                altered((p, s, r), 0, |s, r| {
                    if count(r) > 1 {
                        s.copy_within(..ENTRY_WIDTH, ENTRY_WIDTH);
                    }
                })
            },
            Breach::Entries,
        ),
        (
            "a property that is no subject",
            |p, s, r| altered((p, s, r), 0, |s, r| s[1] = if count(r) > 0 { b'~' } else { s[1] }),
            Breach::Entries,
        ),
        (
            "another datatype's code",
            |p, s, r| {
                altered((p, s, r), 0, |s, r| {
                    if count(r) > 0 {
                        s[ENTRY_WIDTH - 1] = s[ENTRY_WIDTH - 1] % 5 + 1;
                    }
                })
            },
            Breach::Written,
        ),
    ]);
}

/// What the right call gives with buffers of the right lengths.
fn called(page: &[u8]) -> u32 {
    fast().schema(page, &mut [0; SCHEMA_WIDTH], &mut [0; SCHEMA_REPORT_WIDTH])
}

/// Writes what was gathered, as far as there is room.
fn write(gathered: &Gathered, schema: &mut [u8], report: &mut [u8]) -> u32 {
    let entries = gathered.entries.len().min(ENTRY_LIMIT);
    for ((uri, datatype), record) in gathered.entries.iter().zip(schema.chunks_exact_mut(ENTRY_WIDTH)) {
        record.copy_from_slice(&entry(uri, *datatype));
    }
    report[..4].copy_from_slice(&(entries as u32).to_le_bytes());
    report[4..].copy_from_slice(&(gathered.left_out as u32).to_le_bytes());
    0
}

/// The good records in front of the first bad one.
fn front(page: &[u8]) -> Vec<Triple> {
    willetcoffer::page::records(page).map_while(|record| read(record).ok()?.pop()).collect()
}

/// Refused with this number where that is so and 1 is not due; else the right call.
fn refusing(refused: bool, number: u32, lent: (&[u8], &mut [u8], &mut [u8])) -> u32 {
    let fitting = (lent.1.len(), lent.2.len()) == (SCHEMA_WIDTH, SCHEMA_REPORT_WIDTH);
    if fitting && refused {
        number
    } else {
        fast().schema(lent.0, lent.1, lent.2)
    }
}

/// What the page asks for, however much that is; nothing for one that is bad.
fn seen(page: &[u8]) -> Gathered {
    gather::fast(&read(page).unwrap_or_default())
}

/// Calls with another limit on entries.
#[test]
fn other_limits_are_found() {
    found_other(&[
        ("128 refused", |p, s, r| refusing(seen(p).entries.len() >= 128, 19, (p, s, r)), Breach::Written),
        (
            "129 taken, the last one lost",
            |p, s, r| match fast().schema(p, s, r) {
                19 if seen(p).entries.len() == 129 => write(&seen(p), s, r),
                code => code,
            },
            Breach::Written,
        ),
        (
            "those left out take room",
            |p, s, r| refusing(seen(p).entries.len() + seen(p).left_out > 128, 19, (p, s, r)),
            Breach::Written,
        ),
        ("19 before 13", |p, s, r| refusing(gather::fast(&front(p)).entries.len() > 128, 19, (p, s, r)), Breach::Page),
        (
            "19 on the way",
            |p, s, r| {
                let triples = read(p).unwrap_or_default();
                let over = (1..=triples.len()).any(|end| gather::fast(&triples[..end]).entries.len() > 128);
                refusing(over, 19, (p, s, r))
            },
            Breach::Written,
        ),
    ]);
}

/// Calls that take other pages.
#[test]
fn other_pages_are_found() {
    found_other(&[
        ("65,536 bytes refused", |p, s, r| refusing(p.len() >= PAGE_LIMIT, 13, (p, s, r)), Breach::Page),
        (
            "65,537 bytes taken",
            |p, s, r| match fast().schema(p, s, r) {
                13 if p.len() > PAGE_LIMIT && gather::fast(&front(p)).entries.len() <= 128 => {
                    write(&gather::fast(&front(p)), s, r)
                }
                code => code,
            },
            Breach::Page,
        ),
        (
            "up to a bad record",
            |p, s, r| match fast().schema(p, s, r) {
                13 if gather::fast(&front(p)).entries.len() <= 128 => write(&gather::fast(&front(p)), s, r),
                code => code,
            },
            Breach::Page,
        ),
    ]);
}

/// Calls with refusals in another order, and with buffers of other lengths.
#[test]
fn other_refusals_are_found() {
    found_other(&[
        ("14 for 19", |p, s, r| refusing(called(p) == 19, 14, (p, s, r)), Breach::Written),
        ("13 before 1", |p, s, r| if called(p) == 13 { 13 } else { fast().schema(p, s, r) }, Breach::Lent),
        ("19 before 1", |p, s, r| if called(p) == 19 { 19 } else { fast().schema(p, s, r) }, Breach::Lent),
        (
            "a longer schema is taken",
            |p, s, r| {
                let end = s.len().min(SCHEMA_WIDTH);
                fast().schema(p, &mut s[..end], r)
            },
            Breach::Lent,
        ),
        (
            "a longer report is taken",
            |p, s, r| {
                let end = r.len().min(SCHEMA_REPORT_WIDTH);
                fast().schema(p, s, &mut r[..end])
            },
            Breach::Lent,
        ),
        (
            "no report is taken",
            |p, s, r| {
                if r.is_empty() {
                    fast().schema(p, s, &mut [0; SCHEMA_REPORT_WIDTH])
                } else {
                    fast().schema(p, s, r)
                }
            },
            Breach::Lent,
        ),
    ]);
}

/// The law: a load refuses what was gathered.
#[test]
fn a_schema_that_a_load_refuses() {
    let full: How = |station, call, report| {
        if station.card.schema.len() == ENTRY_LIMIT * ENTRY_WIDTH {
            5
        } else {
            fast().call(station, call, report)
        }
    };
    assert_eq!(breach([&fast(), &Instead { call: &full, ..FAST }]), Some(Breach::Loads));
}

/// As many pages as the gate reads.
const PLAN: Plan = Plan { seed: SEED, schemas: 20_000, ..Plan::NONE };

/// The gate's pages meet everything that is required, and without pages all of it is missing.
#[test]
fn all_that_is_required_is_met() {
    let engine = fast();
    let mut compare = compare([&engine, &engine]);
    let required = compare.coverage.missing_of_schemas(20_000);
    assert!(required.len() > 70 && required.iter().all(|missing| missing.contains(": 0 of 1")), "{required:?}");
    assert_eq!((compare.inputs::<SchemaPage>(&PLAN), compare.coverage.missing_of_schemas(20_000)), (0, Vec::new()));
}

/// A page is what its seed and index make it, and what it was written for is what it says: a third way to know what is right.
#[test]
fn pages_are_written_for_what_they_are() {
    let [mut entries, mut refused] = [0; 2];
    for index in 0..PAGES {
        let page = page(SEED, index);
        assert_eq!(page, compare::draw::schemas::page(SEED, index));
        match &page.due {
            Some(Ok(Entries { records, left_out })) => {
                let right = gather::plain(&read(&page.page).unwrap());
                let all: Vec<u8> = right.entries.iter().flat_map(|(uri, datatype)| entry(uri, *datatype)).collect();
                assert_eq!((&all, right.left_out as u32), (records, *left_out));
                entries += 1;
            }
            Some(Err(code)) => {
                assert_eq!(called(&page.page), *code);
                refused += 1;
            }
            None => {}
        }
    }
    assert!(entries > 800 && refused > 600, "{entries} {refused}");
}

fn lent(page: Vec<u8>) -> SchemaPage {
    SchemaPage { page, schema: vec![0xaa; SCHEMA_WIDTH], report: vec![0xaa; SCHEMA_REPORT_WIDTH], due: None }
}

/// A difference is cut down to the records that show it.
#[test]
fn a_page_is_cut_down() {
    let first = fast();
    let wrong =
        gathering(|t| chosen(t, asked, |all| least(all).map(|one| if all.contains(&Integer) { Integer } else { one })));
    let mut compare = compare([&first, &wrong]);
    assert_eq!(compare.inputs::<SchemaPage>(&PLAN), 1);
    let range = |subject: &str, object: Term| triple(&fill(subject.as_bytes()), &fill(b"rdfs:range"), &object);
    let records = [
        range("p:a", uri("xsd:string")),
        range("p:b", uri("xsd:integer")),
        range("p:c", string("x")),
        range("p:a", uri("xsd:string")),
        range("p:b", uri("xsd:decimal")),
    ];
    let page = lent(records.concat());
    let difference = compare.input(&page).expect_err("integer for integer and decimal");
    let told = compare.smaller_input(&page, &difference);
    let lines: Vec<&str> = told.lines().map(str::trim).collect();
    assert_eq!(lines[0], format!("smaller, 578 bytes of {}:", page.page.len()), "{told}");
    assert_eq!(lines[2..4], ["p:b rdfs:range xsd:integer", "p:b rdfs:range xsd:decimal"], "{told}");
    assert!(lines[4].ends_with("entries p:b 03") && lines[5].ends_with("entries p:b 05"), "{told}");
}

/// An engine that panics is found, and its page cut down too.
#[test]
fn a_panic_is_cut_down() {
    let first = fast();
    let schema: Gathers = |page, schema, report| {
        assert!(!page.windows(10).any(|ten| ten == b"xsd:string"), "a string");
        fast().schema(page, schema, report)
    };
    let wrong = Instead { schema, ..FAST };
    let compare = compare([&first, &wrong]);
    let record = |object: &str| triple(&fill(b"p:a"), &fill(b"rdfs:range"), &uri(object));
    let page = lent([record("xsd:anyURI"), record("xsd:string"), record("c:X")].concat());
    let difference = compare.input(&page).expect_err("a panic");
    assert_eq!(difference.breach, Breach::Panic);
    let told = compare.smaller_input(&page, &difference);
    assert!(told.contains("smaller, 289 bytes of 867") && told.contains("wrong: a panic"), "{told}");
}

/// What a call tells of its entries: none on a refusal, or where there is no room for as many as the report counts.
#[test]
fn entries_of_a_call() {
    let given =
        |code, report: [u8; 8]| Given { code, schema: vec![7; SCHEMA_WIDTH], report: report.to_vec() }.entries();
    let of = |count: usize, left_out| Some(Entries { records: vec![7; count * ENTRY_WIDTH], left_out });
    assert_eq!(given(0, [2, 0, 0, 0, 5, 0, 0, 0]), of(2, 5));
    assert_eq!(given(0, [128, 0, 0, 0, 0, 1, 0, 0]), of(128, 256));
    assert_eq!(given(0, [129, 0, 0, 0, 0, 0, 0, 0]), None);
    assert_eq!(given(0, [255, 255, 255, 255, 0, 0, 0, 0]), None);
    assert_eq!(given(13, [2, 0, 0, 0, 5, 0, 0, 0]), None);
}
