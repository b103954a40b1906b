//! Texts of up to 96 bytes: engines that cut them, do not look at their ends, or take what has the widths of before are found; and where two
//! of them are wrong alike, by what each owes by itself, as far as that goes.

use compare::before;
use compare::call::engine::{fast, with, Counts, Second};
use compare::call::{Call, Engine, Station};
use compare::draw::rng::Rng;
use compare::draw::texts::{other_end, Texts};
use compare::judge::Breach;
use compare::replay::Replay;
use compare::shrink::{shrink, Patience};
use second::arcs;
use second::edge::{Look, EDGES, OLD_TEXT};
use second::eval::{Bindings, Fault, Store};
use second::limits::{SLOT, TAG, TERM_TABLE, TEXT};
use second::page::Triple;
use second::schema::Schema;
use second::script::{Cond, Expr};
use second::search::{Search, Task, Tuple};
use second::term::{fill, trim, Term};
use second::truth::Truth;
use second::types::Datatype;
use second::value::Value;
use second::write::{entry, string, tagged, terms, triple, uri};
use std::time::Duration;
use wrong::{differences, differing, first_with, How, Instead, Turn, FAST};

mod wrong;

const SEED: u64 = 6;
const CASES: u64 = 3000;

/// The first breach.
fn breach(engines: [&dyn Engine; 2]) -> Option<Breach> {
    wrong::breach(SEED, CASES, engines)
}

/// Whether a case shows this breach; another case may show another, as a law that graphs are published by.
fn shows(engines: [&dyn Engine; 2], breach: Breach) -> bool {
    differences(SEED, CASES, engines).any(|difference| difference.breach == breach)
}

/// Found against the right one, and where both are wrong so.
fn found(engine: &dyn Engine) -> (Option<Breach>, Option<Breach>) {
    (breach([&fast(), engine]), breach([engine, engine]))
}

/// Where the texts of joined records begin.
fn texts(bytes: &[u8]) -> Vec<usize> {
    let mut starts = Vec::new();
    let mut at = 0;
    while let Some(kind) = bytes.get(at) {
        let (width, texts): (usize, &[usize]) = match kind {
            0x11 => (1 + TEXT, &[1]),
            0x12 => (1 + TAG + TEXT, &[1 + TAG]),
            0x13..=0x15 => (9, &[]),
            0x21 => (2 + TEXT, &[1]),
            0x81 => (1 + 3 * TEXT, &[1, 1 + TEXT, 1 + 2 * TEXT]),
            0x82 => (1 + TAG + 3 * TEXT, &[1, 1 + TEXT, 1 + 2 * TEXT + TAG]),
            0x83..=0x85 => (9 + 2 * TEXT, &[1, 1 + TEXT]),
            _ => break,
        };
        if at + width > bytes.len() {
            break;
        }
        starts.extend(texts.iter().map(|text| at + text));
        at += width;
    }
    starts
}

type Change = fn(&mut [u8; TEXT]);

fn change_texts(bytes: &mut [u8], change: Change) {
    for text in texts(bytes) {
        let field = bytes[text..].first_chunk_mut().expect("a whole field");
        change(field);
    }
}

/// Makes a call by the second engine on other bytes than it is lent: a card, and where it is one the page of a page call.
fn on_other_bytes(station: &mut Station, call: &Call, report: &mut [u8], change: [Option<Change>; 3]) -> u32 {
    let (card, mut call) = (station.card.clone(), call.clone());
    let page = if let Call::Page { page, .. } = &mut call { page } else { &mut Vec::new() };
    for (bytes, change) in [&mut station.card.terms, &mut station.card.schema, page].into_iter().zip(change) {
        change.into_iter().for_each(|change| change_texts(bytes, change));
    }
    let code = fast().call(station, &call, report);
    station.card = card;
    code
}

fn reading(station: &mut Station, call: &Call, report: &mut [u8], change: Change) -> u32 {
    on_other_bytes(station, call, report, [Some(change); 3])
}

fn cut(text: &mut [u8; TEXT]) {
    text[OLD_TEXT..].fill(0);
}

#[test]
fn the_right_engine_passes() {
    let other = Instead { call: &|station, call, report| reading(station, call, report, |_| {}), ..FAST };
    assert_eq!(found(&other), (None, None));
}

/// Texts are read to their ends, and to the end of their field.
#[test]
fn texts_that_are_read_otherwise_are_found() {
    let readers: [(&str, How); 8] = [
        ("cut at 40", |station, call, report| reading(station, call, report, cut)),
        ("the terms alone cut at 40", |station, call, report| {
            on_other_bytes(station, call, report, [Some(cut), None, None])
        }),
        ("the schema alone cut at 40", |station, call, report| {
            on_other_bytes(station, call, report, [None, Some(cut), None])
        }),
        ("the page alone cut at 40", |station, call, report| {
            on_other_bytes(station, call, report, [None, None, Some(cut)])
        }),
        ("the last byte taken for a zero", |station, call, report| {
            reading(station, call, report, |text| text[TEXT - 1] = 0)
        }),
        ("the last byte passed over", |station, call, report| {
            reading(station, call, report, |text| {
                if text[TEXT - 2] == 0 || !(0x20..0x7f).contains(&text[TEXT - 1]) {
                    text[TEXT - 1] = 0;
                }
            })
        }),
        ("bytes after the end passed over from 41 on", |station, call, report| {
            reading(station, call, report, |text| {
                let end = trim(text).len();
                text[end.max(OLD_TEXT)..].fill(0);
            })
        }),
        ("bytes that no text has passed over from 41 on", |station, call, report| {
            reading(station, call, report, |text| {
                let end = trim(text).len();
                let bad = text[..end].iter_mut().skip(OLD_TEXT).filter(|byte| !(0x21..0x7f).contains(*byte));
                bad.for_each(|byte| *byte = b'x');
            })
        }),
    ];
    for (name, how) in readers {
        let (right, alike) = found(&Instead { call: &how, ..FAST });
        assert!(matches!(right, Some(Breach::Answers | Breach::Tables)), "{name}: {right:?}");
        assert_eq!(alike, Some(Breach::Whole), "{name}");
    }
}

/// Texts that are good are refused.
#[test]
fn good_texts_that_are_refused_are_found() {
    fn longest(bytes: &[u8]) -> usize {
        texts(bytes).into_iter().map(|text| trim(&bytes[text..][..TEXT]).len()).max().unwrap_or(0)
    }
    let turns: [(&str, Turn); 4] = [
        ("a listed text of 96 bytes", |station, call, code, _| {
            if (call, *code) == (&Call::Load, 0) && longest(&station.card.terms) == TEXT {
                *code = 2;
            }
        }),
        ("a listed text over 40 bytes", |station, call, code, _| {
            if (call, *code) == (&Call::Load, 0) && longest(&station.card.terms) > OLD_TEXT {
                *code = 2;
            }
        }),
        ("a property of 96 bytes", |station, call, code, _| {
            if (call, *code) == (&Call::Load, 0) && longest(&station.card.schema) == TEXT {
                *code = 4;
            }
        }),
        ("a text of 96 bytes in a page", |_, call, code, _| {
            if let (Call::Page { page, .. }, 0) = (call, *code) {
                *code = if longest(page) == TEXT { 13 } else { 0 };
            }
        }),
    ];
    for (name, turn) in turns {
        assert!(shows([&fast(), &Instead { turn, ..FAST }], Breach::Answers), "{name}");
    }
}

/// A search in which this look sees so many bytes of a text alone.
#[derive(Clone, Copy)]
struct Short {
    look: Option<Look>,
    bytes: usize,
}

impl Short {
    /// What this look sees of a text.
    fn seen(&self, look: Look, text: [u8; TEXT]) -> [u8; TEXT] {
        if self.look == Some(look) {
            fill(&text[..self.bytes])
        } else {
            text
        }
    }

    /// What looks at URIs and at strings see of a value.
    fn value(&self, [of_uri, of_string]: [Look; 2], value: Value) -> Value {
        match value {
            Value::Uri(text) => Value::Uri(self.seen(of_uri, text)),
            Value::Str(Some((tag, text))) => Value::Str(Some((tag, self.seen(of_string, text)))),
            other => other,
        }
    }

    fn expr(&self, store: &Store, expr: &Expr, bindings: &Bindings) -> Result<Value, Fault> {
        match expr {
            Expr::Str(e) => Ok(self.value([Look::StrOfUri, Look::StrOfString], self.expr(store, e, bindings)?).str()),
            other => store.expr(other, bindings),
        }
    }

    fn cond(&self, store: &Store, cond: &Cond, bindings: &Bindings) -> Result<Truth, Fault> {
        let part = |cond: &Cond| self.cond(store, cond, bindings);
        let side = |looks, e: &Expr| Ok(self.value(looks, self.expr(store, e, bindings)?));
        match cond {
            Cond::Or(a, b) => Ok(part(a)?.or(part(b)?)),
            Cond::And(a, b) => Ok(part(a)?.and(part(b)?)),
            Cond::Not(a) => Ok(part(a)?.not()),
            Cond::Equal(a, b) => {
                let looks = [Look::EqualOnUris, Look::EqualOnStrings];
                side(looks, a)?.equal(&side(looks, b)?).map(Truth::from).ok_or(Fault::Comparison)
            }
            Cond::Less(a, b) => {
                let looks = [Look::LessOnUris, Look::LessOnStrings];
                side(looks, a)?.less(&side(looks, b)?, &store.lent).map(Truth::from).ok_or(Fault::Comparison)
            }
            Cond::Regex(pattern, e) => match side([Look::Pattern; 2], e)? {
                Value::Str(string) => Ok(string.map(|(_, text)| pattern.accepts(trim(&text))).into()),
                _ => Err(Fault::NoString),
            },
            test => store.cond(test, bindings),
        }
    }
}

impl Search for Short {
    fn first(&self, task: &Task) -> Result<Option<Tuple>, Fault> {
        first_with(task, &|cond, bindings| self.cond(&task.store, cond, bindings).map(Truth::holds))
    }
}

impl Counts for Short {}

fn short(look: Option<Look>, bytes: usize) -> Second<Short> {
    with("short", [arcs::solve; 2], Short { look, bytes })
}

/// Str, less, equal and patterns see a text whole: 40 bytes of it are not enough, nor are 95.
#[test]
fn looks_that_see_too_little_are_found() {
    assert_eq!(breach([&fast(), &short(None, 0)]), None);
    for look in Look::ALL {
        for bytes in [OLD_TEXT, TEXT - 1] {
            let found = breach([&fast(), &short(Some(look), bytes)]);
            assert!(matches!(found, Some(Breach::Answers | Breach::Tables)), "{look:?} of {bytes} bytes: {found:?}");
        }
    }
}

/// Makes a call on another term table, with slots changed one by one; what the call leaves there is kept.
fn on_other_slots(station: &mut Station, call: &Call, report: &mut [u8], change: fn(&mut [u8])) -> u32 {
    let table = station.term_table.clone();
    if matches!(call, Call::Run { .. } | Call::Page { .. }) && table.len() == TERM_TABLE {
        station.term_table.chunks_mut(SLOT).for_each(change);
    }
    let code = fast().call(station, call, report);
    if code != 0 || matches!(call, Call::Run { .. }) {
        station.term_table = table;
    }
    code
}

/// Soundness looks at every byte of the term table.
#[test]
fn slots_that_are_not_looked_at_are_found() {
    let careless: [(&str, How); 4] = [
        ("a slot's last byte", |station, call, report| {
            on_other_slots(station, call, report, |slot| {
                if slot[0] != 0x12 || slot[SLOT - 2] == 0 || !(0x20..0x7f).contains(&slot[SLOT - 1]) {
                    slot[SLOT - 1] = 0;
                }
            })
        }),
        ("what follows a record past the slot of before", |station, call, report| {
            on_other_slots(station, call, report, |slot| match slot[0] {
                0x11 => slot[1 + TEXT..].fill(0),
                0x13..=0x15 => slot[before::SLOT..].fill(0),
                _ => {}
            })
        }),
        ("what follows a text's end past the slot of before", |station, call, report| {
            on_other_slots(station, call, report, |slot| {
                if let 0x11 | 0x12 = slot[0] {
                    let text = if slot[0] == 0x11 { 1 } else { 1 + TAG };
                    let end = text + trim(&slot[text..]).len();
                    slot[end.max(before::SLOT)..].fill(0);
                }
            })
        }),
        ("free slots past the table of before", |station, call, report| {
            let used = station.used();
            let table = station.term_table.clone();
            let free = (SLOT * used).max(before::TERM_TABLE).min(table.len());
            if matches!(call, Call::Run { .. } | Call::Page { .. }) {
                station.term_table[free..].fill(0);
            }
            let code = fast().call(station, call, report);
            if code != 0 || matches!(call, Call::Run { .. }) {
                station.term_table = table;
            }
            code
        }),
    ];
    for (name, how) in careless {
        assert_eq!(breach([&fast(), &Instead { call: &how, ..FAST }]), Some(Breach::Answers), "{name}");
    }
}

/// Terms are told apart by all their bytes.
#[test]
fn terms_told_apart_by_too_little_are_found() {
    // Two slots that are the same as far as a slot of before went are one term too many.
    let twice: Turn = |station, call, code, _| {
        if let (Call::Run { .. } | Call::Page { .. }, 0) = (call, *code) {
            let slots: Vec<&[u8]> = station.term_table.chunks(SLOT).take_while(|slot| slot[0] != 0).collect();
            let begins = |slot: &[u8]| slot[..before::SLOT].to_vec();
            let alike = |place: usize| slots[..place].iter().any(|slot| begins(slot) == begins(slots[place]));
            *code = if (0..slots.len()).any(alike) { 10 } else { 0 };
        }
    };
    assert_eq!(found(&Instead { turn: twice, ..FAST }), (Some(Breach::Answers), Some(Breach::Unsound)));
    // Listed terms, and a schema's properties, that differ past byte 40 alone are the same.
    let listed: Turn = |station, call, code, _| {
        let terms = second::terms::read_listed(&station.card.terms).unwrap_or_default();
        let old: Vec<Vec<u8>> = terms.iter().map(|term| before::terms([term])).collect();
        if (call, *code) == (&Call::Load, 0) && (0..old.len()).any(|place| old[..place].contains(&old[place])) {
            *code = 3;
        }
    };
    let properties: Turn = |station, call, code, _| {
        let schema = Schema::read(&station.card.schema).unwrap_or_default();
        let old: Vec<&[u8]> = schema.properties.iter().map(|property| &property[..OLD_TEXT]).collect();
        if (call, *code) == (&Call::Load, 0) && (0..old.len()).any(|place| old[..place].contains(&old[place])) {
            *code = 5;
        }
    };
    for turn in [listed, properties] {
        assert_eq!(breach([&fast(), &Instead { turn, ..FAST }]), Some(Breach::Answers));
    }
}

/// Makes a page call with texts in the place of others that begin alike, each text by its place in the record.
fn mistaken(station: &mut Station, call: &Call, report: &mut [u8], of_schema: bool) -> u32 {
    let Call::Page { graph, page, report: length } = call else { return fast().call(station, call, report) };
    let schema = Schema::read(&station.card.schema).unwrap_or_default();
    let known: Vec<Term> = station.term_table.chunks(SLOT).map_while(Term::from_slot).collect();
    let known = known.iter().filter_map(|term| if let Term::Uri(text) = term { Some(*text) } else { None });
    let known: Vec<[u8; TEXT]> = if of_schema { schema.properties.clone() } else { known.collect() };
    let alike =
        |text: [u8; TEXT]| known.iter().find(|other| other[..OLD_TEXT] == text[..OLD_TEXT]).copied().unwrap_or(text);
    let Ok(triples) = second::page::read(page) else { return fast().call(station, call, report) };
    let records = triples.iter().map(|Triple { subject, property, object }| match of_schema {
        true => triple(subject, &alike(*property), object),
        false => triple(&alike(*subject), property, object),
    });
    let page = records.collect::<Vec<_>>().concat();
    fast().call(station, &Call::Page { graph: *graph, page, report: *length }, report)
}

/// A page's subjects and properties are looked up by all their bytes.
#[test]
fn texts_looked_up_by_too_little_are_found() {
    let lookups: [How; 2] = [
        |station, call, report| mistaken(station, call, report, false),
        |station, call, report| mistaken(station, call, report, true),
    ];
    for (place, how) in lookups.into_iter().enumerate() {
        let (right, alike) = found(&Instead { call: &how, ..FAST });
        assert!(matches!(right, Some(Breach::Answers | Breach::Tables)), "{place}: {right:?}");
        assert_eq!(alike, Some(Breach::Whole), "{place}");
    }
}

/// The terms of a table of before.
fn old_terms(table: &[u8]) -> Vec<Term> {
    let slots = table.chunks(before::SLOT).take_while(|slot| slot[0] != 0);
    let widened = slots.filter_map(|slot| {
        let width = match slot[0] {
            0x11 => 1 + OLD_TEXT,
            0x12 => before::SLOT,
            _ => 9,
        };
        before::read_terms(&slot[..width])?.pop()
    });
    widened.collect()
}

fn new_table(list: &[Term]) -> Vec<u8> {
    let mut table: Vec<u8> = list.iter().flat_map(|term| term.slot()).collect();
    table.resize(TERM_TABLE, 0);
    table
}

/// Makes a call on a station whose term table may be one of before, as if it were one of now.
fn widened(station: &mut Station, call: &Call, report: &mut [u8]) -> u32 {
    let table = station.term_table.clone();
    if call.is_lent() && table.len() == before::TERM_TABLE {
        station.term_table = new_table(&old_terms(&table));
    }
    let code = fast().call(station, call, report);
    if code != 0 {
        station.term_table = table;
    }
    code
}

/// Term tables of before meet 1.
#[test]
fn tables_of_before_that_are_taken_are_found() {
    let takers: [(&str, How); 3] = [
        ("read as it was", widened),
        ("unsound", |station, call, report| {
            let old = call.is_lent() && station.term_table.len() == before::TERM_TABLE;
            let code = fast().call(station, call, report);
            if old && code == 1 && *call != Call::Load {
                10
            } else {
                code
            }
        }),
        ("any length", |station, call, report| {
            let length = station.term_table.len();
            station.term_table.resize(TERM_TABLE, 0);
            let code = fast().call(station, call, report);
            station.term_table.resize(length, 0);
            code
        }),
    ];
    for (name, how) in takers {
        assert_eq!(found(&Instead { call: &how, ..FAST }), (Some(Breach::Answers), Some(Breach::Lent)), "{name}");
    }
}

/// Cards and pages of before are refused.
#[test]
fn records_of_before_that_are_taken_are_found() {
    let takers: [(&str, How); 3] = [
        ("terms", |station, call, report| {
            let card = station.card.clone();
            if let Some(old) = before::read_terms(&card.terms) {
                station.card.terms = terms(&old);
            }
            let code = fast().call(station, call, report);
            station.card = card;
            code
        }),
        ("schema", |station, call, report| {
            let card = station.card.clone();
            if let Some(old) = before::read_schema(&card.schema) {
                station.card.schema = old.iter().flat_map(|(property, datatype)| entry(property, *datatype)).collect();
            }
            let code = fast().call(station, call, report);
            station.card = card;
            code
        }),
        ("page", |station, call, report| match call {
            Call::Page { graph, page, report: length } => {
                let old = before::read_page(page).unwrap_or_default();
                let widened: Vec<Vec<u8>> = old.iter().map(|t| triple(&t.subject, &t.property, &t.object)).collect();
                let page = if widened.is_empty() { page.clone() } else { widened.concat() };
                fast().call(station, &Call::Page { graph: *graph, page, report: *length }, report)
            }
            _ => fast().call(station, call, report),
        }),
    ];
    for (name, how) in takers {
        assert_eq!(found(&Instead { call: &how, ..FAST }), (Some(Breach::Answers), Some(Breach::Old)), "{name}");
    }
}

/// Slots of before in a table of now are unsound.
#[test]
fn slots_of_before_that_are_taken_are_found() {
    let taken: How = |station, call, report| {
        let before = station.clone();
        let code = fast().call(station, call, report);
        if code != 10 {
            return code;
        }
        station.term_table = new_table(&old_terms(&station.term_table[..before::TERM_TABLE]));
        let code = fast().call(station, call, report);
        *station = before;
        code
    };
    assert!(matches!(breach([&fast(), &Instead { call: &taken, ..FAST }]), Some(Breach::Answers | Breach::Tables)));
}

/// A difference on a station whose term table has another length is made again and cut down.
#[test]
fn a_table_of_before_is_cut_down() {
    let (first, other) = (fast(), Instead { call: &widened, ..FAST });
    let engines: [&dyn Engine; 2] = [&first, &other];
    let (kept, _) = differing(SEED, CASES, engines).next().expect("a case shows it");
    let shows = |replay: &Replay| replay.play(engines).is_some_and(|(_, d)| d.breach == Breach::Answers);
    assert!(shows(&kept));
    let patience = Patience { tries: 20_000, time: Duration::from_secs(60) };
    let small = shrink(kept, patience, &mut |replay| shows(replay));
    assert!(shows(&small));
    let tampering = small.moves.last().and_then(|last| last.tampering.as_ref()).expect("it was tampered with");
    assert_eq!(tampering.length, Some(before::TERM_TABLE));
    assert!(small.moves.len() <= 2 && small.bytes() <= 200, "{} moves, {} bytes", small.moves.len(), small.bytes());
}

/// What is drawn is what it is said to be.
#[test]
fn drawn_texts() {
    let mut rng = Rng::new(SEED, 0);
    let (mut long, mut ends) = (0, [0; EDGES.len()]);
    for n in 0..3000 {
        let texts = Texts::new(&mut rng);
        long += usize::from(texts.are_long());
        let drawn = [texts.uri(&mut rng, n), texts.property(&mut rng, n), texts.string(&mut rng, n)];
        assert!(drawn.iter().all(|text| text.len() <= TEXT && text.iter().all(|byte| (0x20..0x7f).contains(byte))));
        assert!(drawn[..2].iter().all(|uri| !uri.is_empty() && !uri.contains(&b' ')));
        for (count, edge) in ends.iter_mut().zip(EDGES) {
            *count += drawn.iter().filter(|text| text.len() == edge).count();
        }
        let [uri, _, text] = drawn;
        for term in [Term::Uri(fill(&uri)), Term::Str(fill(b"en"), fill(&text))] {
            let Some(other) = other_end(&mut rng, &term) else {
                assert!(text.is_empty());
                continue;
            };
            let (a, b) = (term.slot(), other.slot());
            let differs: Vec<usize> = (0..SLOT).filter(|at| a[*at] != b[*at]).collect();
            assert_eq!(differs.len(), 1);
            assert!(a[differs[0]] != 0 && a.get(differs[0] + 1).is_none_or(|byte| *byte == 0));
        }
    }
    assert_eq!(other_end(&mut rng, &Term::Int(3)), None);
    assert!(long > 800 && ends.iter().all(|count| *count > 300), "{long} {ends:?}");
}

/// What is written in the widths of before is read back by them, with texts cut to theirs, and is nothing else.
#[test]
fn records_of_before() {
    let old = |text: &str| text[..text.len().min(OLD_TEXT)].to_string();
    let (short, full, over) = ("u:a".to_string(), "x".repeat(OLD_TEXT), "x".repeat(TEXT));
    let mut expected = Vec::new();
    let mut listed = vec![Term::Int(3), Term::Dec(-5), Term::Time(0)];
    expected.extend(listed.clone());
    for text in [&short, &full, &over] {
        listed.extend([uri(text), string(text), tagged("abcdefgh", text)]);
        expected.extend([uri(&old(text)), string(&old(text)), tagged("abcdefgh", &old(text))]);
    }
    assert_eq!(before::read_terms(&before::terms(&listed)), Some(expected.clone()));
    assert_eq!(old_terms(&before::table(&listed)), expected);
    assert_eq!(before::table(&listed).len(), before::TERM_TABLE);
    assert!(before::has_texts(&before::terms(&listed)) && !before::has_texts(&before::terms(&listed[..3])));
    assert!(!before::has_texts(&terms(&listed)) && !before::has_texts(&[]));

    let new = [entry(&fill(short.as_bytes()), Datatype::String), entry(&fill(over.as_bytes()), Datatype::Integer)];
    let schema = before::schema(&Schema::read(&new.concat()).unwrap());
    let entries = vec![(fill(short.as_bytes()), Datatype::String), (fill(full.as_bytes()), Datatype::Integer)];
    assert_eq!(before::read_schema(&schema), Some(entries));
    assert!(before::is_schema(&schema) && !before::is_schema(&new.concat()) && !before::is_schema(&[]));

    let new: Vec<Vec<u8>> = listed.iter().map(|object| triple(&fill(over.as_bytes()), &fill(b"p:a"), object)).collect();
    let page = before::page(&second::page::read(&new.concat()).unwrap());
    let (subject, property) = (fill(full.as_bytes()), fill(b"p:a"));
    let triples: Vec<Triple> = expected.iter().map(|object| Triple { subject, property, object: *object }).collect();
    assert_eq!(before::read_page(&page), Some(triples));
    assert!(before::is_page(&page) && !before::is_page(&new.concat()) && !before::is_page(&[]));
}
