//! Records and tables of before document 02's Ask 6, when a text had a field of [`OLD_TEXT`] bytes: written, and read.

use second::edge::OLD_TEXT;
use second::limits::{TAG, TERMS, TEXT};
use second::page::Triple;
use second::schema::Schema;
use second::term::{fill, uri_body, Term, Uri};
use second::terms::read_listed;
use second::types::Datatype;
use willetcoffer::Card;

/// Bytes of a slot.
pub const SLOT: usize = 1 + TAG + OLD_TEXT;
/// Bytes of a term table.
pub const TERM_TABLE: usize = TERMS * SLOT;

/// The body of a term's record; a text that is too long is cut.
fn body(term: &Term) -> Vec<u8> {
    match term {
        Term::Uri(text) => text[..OLD_TEXT].to_vec(),
        Term::Str(tag, text) => [&tag[..], &text[..OLD_TEXT]].concat(),
        Term::Int(_) | Term::Dec(_) | Term::Time(_) => term.record()[1..].to_vec(),
    }
}

fn record(term: &Term) -> Vec<u8> {
    [vec![term.kind()], body(term)].concat()
}

/// Terms joined.
pub fn terms<'a>(list: impl IntoIterator<Item = &'a Term>) -> Vec<u8> {
    list.into_iter().flat_map(record).collect()
}

/// Schema records joined.
pub fn schema(schema: &Schema) -> Vec<u8> {
    let entry = |uri: &Uri| [&[0x21], &uri[..OLD_TEXT], &[schema.datatypes[uri] as u8]].concat();
    schema.properties.iter().flat_map(entry).collect()
}

/// A card of now, joined as the type printer reads it, in the widths of before; none where it cannot be read.
pub fn joined(card: &Card) -> Option<Vec<u8>> {
    let (listed, entries) = (read_listed(&card.terms).ok()?, Schema::read(&card.schema).ok()?);
    Some([terms(&listed), schema(&entries), card.script.clone()].concat())
}

/// A page.
pub fn page(triples: &[Triple]) -> Vec<u8> {
    let record = |Triple { subject, property, object }: &Triple| {
        [&[object.kind() + 0x70], &subject[..OLD_TEXT], &property[..OLD_TEXT], &body(object)].concat()
    };
    triples.iter().flat_map(record).collect()
}

/// A term table with these terms.
pub fn table<'a>(list: impl IntoIterator<Item = &'a Term>) -> Vec<u8> {
    let mut table = vec![0; TERM_TABLE];
    for (slot, term) in table.chunks_mut(SLOT).zip(list) {
        let record = record(term);
        slot[..record.len()].copy_from_slice(&record);
    }
    table
}

/// Takes a field off the front, widened to what it has now.
fn take_text(bytes: &mut &[u8]) -> Option<[u8; TEXT]> {
    bytes.split_off(..OLD_TEXT).map(fill)
}

fn take_uri(bytes: &mut &[u8]) -> Option<Uri> {
    uri_body(&take_text(bytes)?)
}

/// Takes the body of a term of this kind off the front.
fn take_term(kind: u8, bytes: &mut &[u8]) -> Option<Term> {
    match kind {
        0x11 => take_uri(bytes).map(Term::Uri),
        0x12 => {
            let tag = bytes.split_off(..TAG)?;
            Term::from_body(kind, &[tag, &take_text(bytes)?].concat())
        }
        _ => Term::from_body(kind, bytes.split_off(..Term::body_length(kind)?)?),
    }
}

/// Takes a schema record off the front.
fn take_entry(bytes: &mut &[u8]) -> Option<(Uri, Datatype)> {
    bytes.split_off_first().filter(|kind| **kind == 0x21)?;
    Some((take_uri(bytes)?, Datatype::from_code(*bytes.split_off_first()?)?))
}

/// Takes a page record off the front.
fn take_triple(bytes: &mut &[u8]) -> Option<Triple> {
    let kind = bytes.split_off_first()?.checked_sub(0x70)?;
    let (subject, property) = (take_uri(bytes)?, take_uri(bytes)?);
    Some(Triple { subject, property, object: take_term(kind, bytes)? })
}

/// All records, if they are good.
fn read<T>(mut bytes: &[u8], take: impl Fn(&mut &[u8]) -> Option<T>) -> Option<Vec<T>> {
    let mut all = Vec::new();
    while !bytes.is_empty() {
        all.push(take(&mut bytes)?);
    }
    Some(all)
}

/// The terms of these records, if they are good.
pub fn read_terms(terms: &[u8]) -> Option<Vec<Term>> {
    read(terms, |bytes| take_term(*bytes.split_off_first()?, bytes))
}

/// The entries of these records, if they are good.
pub fn read_schema(schema: &[u8]) -> Option<Vec<(Uri, Datatype)>> {
    read(schema, take_entry)
}

/// The triples of these records, if they are good.
pub fn read_page(page: &[u8]) -> Option<Vec<Triple>> {
    read(page, take_triple)
}

/// Whether these are good term records, at least one of them with a text.
pub fn has_texts(terms: &[u8]) -> bool {
    let is_text = |term: &Term| matches!(term, Term::Uri(_) | Term::Str(..));
    read_terms(terms).is_some_and(|terms| terms.iter().any(is_text))
}

/// Whether these are good schema records, at least one.
pub fn is_schema(schema: &[u8]) -> bool {
    read_schema(schema).is_some_and(|entries| !entries.is_empty())
}

/// Whether these are good page records, at least one.
pub fn is_page(page: &[u8]) -> bool {
    read_page(page).is_some_and(|triples| !triples.is_empty())
}
