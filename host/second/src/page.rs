//! Pages: reading their records and taking their triples in.

use crate::check::Loaded;
use crate::eval::Quad;
use crate::limits::{GRAPHS, PAGE, QUADS, TERMS, TEXT};
use crate::note::{note, Note};
use crate::order::Order;
use crate::refusal::{demand, refuse, Refusal};
use crate::sound::Held;
use crate::term::{uri_body, Term, Uri};

/// A triple of a page.
#[derive(Clone, Copy, PartialEq, Eq, Debug)]
pub struct Triple {
    /// The subject.
    pub subject: Uri,
    /// The property.
    pub property: Uri,
    /// The object.
    pub object: Term,
}

/// The record that stands first, and the bytes after it.
fn record(bytes: &[u8]) -> Option<(Triple, &[u8])> {
    let (kind, rest) = bytes.split_first()?;
    let kind = kind.checked_sub(0x70)?;
    let length = 2 * TEXT + Term::body_length(kind)?;
    let body = rest.get(..length)?;
    let subject = uri_body(&body[..TEXT])?;
    let property = uri_body(&body[TEXT..2 * TEXT])?;
    let object = Term::from_body(kind, &body[2 * TEXT..])?;
    Some((Triple { subject, property, object }, &rest[length..]))
}

/// Reads all records of a page (refusal 13).
pub fn read(mut page: &[u8]) -> Result<Vec<Triple>, Refusal> {
    demand(page.len() <= PAGE, 13, "page bytes")?;
    let mut triples = Vec::new();
    while !page.is_empty() {
        match record(page) {
            Some((triple, rest)) => {
                triples.push(triple);
                page = rest;
            }
            None => return refuse(13, "page record"),
        }
    }
    Ok(triples)
}

/// Takes a graph's page in: its triples replace the quads that the graph had, new terms are numbered in page order, the
/// graph joins the fetched list, and all quads stand in order. Gives the number of skipped records, or refusal 14 if a limit is
/// passed in the end.
pub fn take_in(triples: &[Triple], graph: u16, order: Order, held: &mut Held) -> Result<u32, Refusal> {
    let Held { loaded: Loaded { schema, terms, .. }, quads, machine } = held;
    let mut skipped = 0;
    let mut page = Vec::new();
    for Triple { subject, property, object } in triples {
        if !schema.datatype(property).is_some_and(|datatype| object.has_datatype(datatype)) {
            skipped += 1;
            continue;
        }
        let subject = terms.add(Term::Uri(*subject), schema);
        let property = terms.add(Term::Uri(*property), schema);
        let object = terms.add(*object, schema);
        page.push([graph, subject as u16, property as u16, object as u16]);
    }
    quads.retain(|quad| quad[0] != graph);
    put(order, page, quads);
    if !machine.fetched.contains(&graph) {
        machine.fetched.push(graph);
    }
    demand(terms.len() <= TERMS, 14, "terms")?;
    demand(quads.len() <= QUADS, 14, "quads")?;
    demand(machine.fetched.len() <= GRAPHS, 14, "graphs")?;
    Ok(skipped)
}

/// Puts a page's quads to those of the other graphs; where that is more than to append them, it is noted.
fn put(order: Order, page: Vec<Quad>, quads: &mut Vec<Quad>) {
    if !page.is_sorted() {
        note(Note::AnotherOrder);
    }
    if page.first().zip(quads.last()).is_some_and(|(page, last)| page[0] < last[0]) {
        note(Note::BeforeAnother);
    }
    let given = page.len() + quads.len();
    (order.put)(quads, page);
    if quads.len() < given {
        note(Note::Twice);
    }
}
