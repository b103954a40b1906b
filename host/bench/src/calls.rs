//! The workloads of single calls: a load, a run call and a page, all at the limits.

use crate::texts::Texts;
use compare::call::{Call, Engine, Station};
use willetcoffer::kinds::{PAGE, STRING, URI};
use willetcoffer::limits::{BLOCK_WIDTH, ENTRY_LIMIT, PAGE_LIMIT, QUAD_LIMIT, TERM_LIMIT};
use willetcoffer::page::{record_width, triple};
use willetcoffer::script::*;
use willetcoffer::{BadTerm, Card, Datatype, PageReport, Term};

/// Patterns and filters joined as a balanced tree.
pub fn joined(mut parts: Vec<Query>) -> Query {
    while parts.len() > 1 {
        let pairs = parts.chunks(2).map(|pair| match pair {
            [a, b] => both(a.clone(), b.clone()),
            other => other[0].clone(),
        });
        parts = pairs.collect();
    }
    parts.pop().unwrap_or_else(empty)
}

fn length(part: &impl AsRef<[u8]>) -> usize {
    part.as_ref().len()
}

/// Bytes of a block's head with its kind.
const HEAD: usize = 1 + BLOCK_WIDTH;

/// The property at this place of the n-th five: of each five entries the third ranges over decimals, the fifth over
/// integers; the schema's URIs are the last terms.
fn property(n: usize, place: usize) -> Name {
    con((TERM_LIMIT - ENTRY_LIMIT + (5 * n + place) % (ENTRY_LIMIT - 3)) as u16)
}

/// The parts of a block's query in so much room: over its graph, subject, number and property variables.
fn parts(block: u8, room: usize) -> Vec<Query> {
    let [g, s, v, p] = [0, 1, 2, 3].map(|i| var(4 * block + i));
    // A property variable over integers, and its object an integer.
    let mut parts = vec![
        pattern([g.clone(), s.clone(), p, con(1)]),
        pattern([g.clone(), s.clone(), property(usize::from(block), 4), v.clone()]),
    ];
    let mut used = 24;
    for n in 0.. {
        let part = match n % 3 {
            0 => pattern([g.clone(), s.clone(), property(n, 2), v.clone()]),
            1 => filter(less(v.clone(), con(2 + n as u16))),
            _ => filter(equal(plus(v.clone(), con(1)), v.clone())),
        };
        used += length(&part) + 1;
        if used > room {
            break;
        }
        parts.push(part);
    }
    parts
}

/// A script of so many bytes in which four blocks bind sixteen open variables: graph, subject, a number and a
/// property each, tied together by patterns and comparisons.
fn script(bytes: usize) -> Script {
    let mut script = success();
    let room = (bytes - 1) / 4 - HEAD;
    for block in (0..4u8).rev() {
        let mut parts = parts(block, room);
        if block == 0 {
            // The outermost block makes the script as long as it is to be: 2 bytes for an empty query, 3 for a filter.
            let so_far = HEAD + parts.iter().map(length).sum::<usize>() + parts.len() - 1 + length(&script);
            let left = bytes - so_far;
            parts.extend((0..left / 2 - left % 2).map(|_| empty()));
            parts.extend((0..left % 2).map(|_| filter(boolean(true))));
        }
        let pairs = [0, 1, 2, 3].map(|i| (4 * block + i, None));
        script = each(&pairs, joined(parts), script);
    }
    script
}

/// A station before its load: a script of so many bytes over 512 terms and 128 entries. Term 0 is the graph, then come
/// numbers and so many strings, last the schema's URIs.
pub fn before_load(bytes: usize, strings: usize, texts: Texts) -> Result<Station, BadTerm> {
    let property = |n| Term::uri(&texts.of(&format!("http://club.example/property/{n}")));
    let properties = (0..ENTRY_LIMIT).map(property).collect::<Result<Vec<Term>, BadTerm>>()?;
    let mut listed = vec![Term::uri(&texts.of("http://club.example/yard/0"))?];
    for n in 1..TERM_LIMIT - ENTRY_LIMIT - strings {
        listed.push(Term::integer(n as i64)?);
    }
    for n in 0..strings {
        listed.push(Term::tagged("en", &texts.of(&format!("Locomotive {n}")))?);
    }
    listed.extend(&properties);
    let entries: Vec<(Term, Datatype)> =
        properties.iter().enumerate().map(|(n, property)| (*property, Datatype::ALL[n % 5])).collect();
    Ok(Station::new(Card::new(&listed, &entries, script(bytes)), 0))
}

/// The properties of the pages, and a loaded station of so many graphs that has them.
fn yards(engine: &dyn Engine, graphs: usize, texts: Texts) -> Result<([Term; 2], Station), BadTerm> {
    let [name, friend] = [Term::uri(&texts.of("p:name"))?, Term::uri(&texts.of("p:friend"))?];
    let schema = [(name, Datatype::String), (friend, Datatype::AnyUri)];
    let yard = |n| Term::uri(&texts.of(&format!("http://club.example/yard/{n}")));
    let listed = (0..graphs).map(yard).collect::<Result<Vec<Term>, BadTerm>>()?;
    let mut station = Station::new(Card::new(&listed, &schema, success()), 0);
    assert_eq!(station.call(engine, &Call::Load).code, 0);
    Ok(([name, friend], station))
}

/// So many names of 28 locomotives and so many of their friendships, each a record; all names are new, and so are the locomotives.
fn records([name, friend]: [Term; 2], names: usize, friends: usize, texts: Texts) -> Result<Vec<Vec<u8>>, BadTerm> {
    let loco = |n: usize| Term::uri(&texts.of(&format!("http://club.example/loco/{n}")));
    let mut records = Vec::new();
    for n in 0..names {
        let called = Term::tagged("en", &texts.of(&format!("Locomotive {n}")))?;
        records.extend(triple(&loco(n % 28)?, &name, &called));
    }
    for n in 0..friends {
        records.extend(triple(&loco(n % 8)?, &friend, &loco(8 + n / 8)?));
    }
    Ok(records)
}

/// A station and a page of 65,536 bytes for its graph 0: as many names as may be, the rest friends, all of them new.
pub fn full_page(engine: &dyn Engine, texts: Texts) -> Result<(Station, Call), BadTerm> {
    let (properties, station) = yards(engine, 1, texts)?;
    let [named, befriended] =
        [STRING, URI].map(|object| record_width(PAGE + object).expect("the kind of a page record"));
    let fits = |names: &usize| (PAGE_LIMIT - names * named).is_multiple_of(befriended);
    let names = (0..=PAGE_LIMIT / named).rev().find(fits).expect("a page as long as may be");
    let page = records(properties, names, (PAGE_LIMIT - names * named) / befriended, texts)?.concat();
    assert_eq!(page.len(), PAGE_LIMIT);
    Ok((station, Call::page(0, page)))
}

/// A station whose store is full: 448 names and 64 friends, 512 quads in as many graphs as it takes pages.
pub fn full_store(engine: &dyn Engine, texts: Texts) -> Result<Station, BadTerm> {
    let (properties, mut station) = yards(engine, 3, texts)?;
    let records = records(properties, 448, 64, texts)?;
    for (graph, records) in records.chunks(records.len().div_ceil(3)).enumerate() {
        assert_eq!(station.call(engine, &Call::page(graph, records.concat())).paged(), Some(PageReport { skipped: 0 }));
    }
    assert_eq!(station.quads().len(), QUAD_LIMIT);
    Ok(station)
}
