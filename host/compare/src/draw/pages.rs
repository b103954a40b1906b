//! Pages: triples over the words of a case, with repeats, wrong objects, unknown properties and new terms; and triples that
//! make the script's patterns meet.

use crate::draw::pool::{datatype, term, Pool};
use crate::draw::rng::Rng;
use crate::draw::texts::{other_end, Texts};
use second::check::Loaded;
use second::script::{Kind, Name, Query};
use second::term::{fill, Term, Uri};
use second::types::Datatype;
use second::write::triple;
use willetcoffer::limits::PAGE_LIMIT;
use willetcoffer::page::records;

/// Triples with their graph's number, of all patterns of a script under a few choices for its variables.
pub fn witnesses(rng: &mut Rng, loaded: &Loaded) -> Vec<(usize, Vec<u8>)> {
    let mut all = Vec::new();
    for node in &loaded.script.nodes {
        if let Kind::Block(block) = &node.kind {
            all.extend(patterns(&block.query));
        }
    }
    let mut found = Vec::new();
    for _ in 0..rng.within(1, 4) {
        let chosen = loaded.types.map(|t| {
            let fits: Vec<usize> =
                (0..loaded.terms.len()).filter(|n| t.is_some_and(|t| loaded.terms.has_type(*n, t))).collect();
            let few = if rng.one_in(2) { fits.len().min(2) } else { fits.len() };
            rng.pick(&fits[..few]).copied()
        });
        let number = |name: &Name| match name {
            Name::Const(number) => Some(usize::from(*number)),
            Name::Var(v) => chosen[usize::from(*v)],
        };
        for [graph, subject, property, object] in &all {
            let term = |name: &Name| loaded.terms.get(number(name)?).copied();
            if let (Some(graph), Some(Term::Uri(s)), Some(Term::Uri(p)), Some(o)) =
                (number(graph), term(subject), term(property), term(object))
            {
                found.push((graph, triple(&s, &p, &o)));
            }
        }
    }
    found
}

/// The patterns of a query.
pub(super) fn patterns(query: &Query) -> Vec<[Name; 4]> {
    match query {
        Query::Pattern(names) => vec![*names],
        Query::Both(a, b) | Query::Union(a, b) => [patterns(a), patterns(b)].concat(),
        Query::Filter(..) | Query::Empty => Vec::new(),
    }
}

/// A subject: mostly one of few, so that joins meet.
fn subject(rng: &mut Rng, texts: Texts, uris: &[Uri], new: usize) -> Uri {
    match rng.pick(&uris[..uris.len().min(6)]) {
        Some(uri) if rng.percent(70) => *uri,
        _ => {
            let n = rng.below(new);
            fill(&texts.uri(rng, n))
        }
    }
}

/// A property and a datatype: mostly of the schema; a URI that differs from one of these in its last byte alone; any other.
fn property(rng: &mut Rng, pool: &Pool, uris: &[Uri]) -> (Uri, Datatype) {
    match (rng.pick(&pool.schema), rng.below(45)) {
        (Some((uri, d)), 0..=1) => match other_end(rng, &Term::Uri(*uri)) {
            Some(Term::Uri(other)) => (other, *d),
            _ => (*uri, *d),
        },
        (Some((uri, d)), 4..) => (*uri, *d),
        _ => (subject(rng, pool.texts, uris, 5), datatype(rng)),
    }
}

/// A page of about so many records; `new` bounds how many new terms there are.
pub fn page(rng: &mut Rng, pool: &Pool, records: usize, new: usize) -> Vec<u8> {
    let uris: Vec<Uri> =
        pool.numbered.iter().filter_map(|t| if let Term::Uri(u) = t { Some(*u) } else { None }).collect();
    let mut done: Vec<Vec<u8>> = Vec::new();
    for _ in 0..records {
        let (property, range) = property(rng, pool, &uris);
        let wanted = if rng.one_in(12) { datatype(rng) } else { range };
        let known: Vec<&Term> = pool.numbered.iter().take(60).filter(|t| t.has_datatype(wanted)).collect();
        let object = match rng.pick(&known) {
            Some(term) if rng.percent(60) => **term,
            _ => {
                let n = rng.below(new);
                term(rng, pool.texts, wanted, n)
            }
        };
        let again = done.last().filter(|_| rng.one_in(12)).cloned();
        done.push(again.unwrap_or_else(|| triple(&subject(rng, pool.texts, &uris, new), &property, &object)));
    }
    done.concat()
}

/// A page for a table at its limits: many records over few or over many new terms.
pub fn full(rng: &mut Rng, pool: &Pool) -> Vec<u8> {
    let count = rng.within(1, 400);
    let new = rng.one(&[4, 40, 400, 400, 400]);
    let mut bytes = page(rng, pool, count, new);
    if bytes.len() > PAGE_LIMIT && !rng.one_in(4) {
        // Whole records only, so that the page is good and as long as it may be.
        let ends = records(&bytes).scan(0, |end, record| {
            *end += record.len();
            Some(*end)
        });
        let end = ends.take_while(|end| *end <= PAGE_LIMIT).last().unwrap_or(0);
        bytes.truncate(end);
    }
    bytes
}
