//! Pages: a club's triples, record after record.

use crate::kinds;
use crate::limits::{OBJECT_OFFSET, PROPERTY_OFFSET, SLOT_WIDTH, TEXT_WIDTH};
use crate::term::{body_width, Term};

/// The bytes of a page record of this kind, 81 to 85: kind, subject, property, and an object's body as its kind fixes it.
pub fn record_width(kind: u8) -> Option<usize> {
    let object = body_width(kind.checked_sub(kinds::PAGE)?)?;
    Some(1 + 2 * TEXT_WIDTH + object)
}

/// The bytes of the longest page record, that of a string: a graph of so many triples publishes into at most so many of these.
pub const LONGEST_RECORD: usize = OBJECT_OFFSET + SLOT_WIDTH - 1;

/// A triple's record; none where subject or property is no URI.
///
/// ```
/// use willetcoffer::page::{record_width, triple};
/// use willetcoffer::Term;
/// let record = triple(&Term::uri("u:mallard")?, &Term::uri("p:speed")?, &Term::integer(126)?).ok_or("no URI")?;
/// assert_eq!(record[0], 0x83);
/// assert_eq!(Some(record.len()), record_width(0x83));
/// # Ok::<(), Box<dyn std::error::Error>>(())
/// ```
pub fn triple(subject: &Term, property: &Term, object: &Term) -> Option<Vec<u8>> {
    Some([&[object.kind() + kinds::PAGE], subject.uri_body()?, property.uri_body()?, object.body()].concat())
}

/// Subject, property and object of a record; none where it is no record of a page.
///
/// ```
/// use willetcoffer::page::{terms, triple};
/// use willetcoffer::Term;
/// let triple_of = [Term::uri("u:mallard")?, Term::uri("p:name")?, Term::tagged("en", "Mallard")?];
/// let [subject, property, object] = &triple_of;
/// assert_eq!(triple(subject, property, object).and_then(|record| terms(&record)), Some(triple_of));
/// assert_eq!(terms(&[0x81]), None);
/// # Ok::<(), Box<dyn std::error::Error>>(())
/// ```
pub fn terms(record: &[u8]) -> Option<[Term; 3]> {
    let kind = record.first()?.checked_sub(kinds::PAGE)?;
    if record_width(record[0]) != Some(record.len()) {
        return None;
    }
    let term = |kind: u8, body: &[u8]| {
        let mut slot = [0; SLOT_WIDTH];
        slot[0] = kind;
        slot[1..=body.len()].copy_from_slice(body);
        Term::from_slot(&slot)
    };
    let subject = term(kinds::URI, &record[1..PROPERTY_OFFSET])?;
    let property = term(kinds::URI, &record[PROPERTY_OFFSET..OBJECT_OFFSET])?;
    Some([subject, property, term(kind, &record[OBJECT_OFFSET..])?])
}

/// The records of a page, one after the other; at a kind that no page has, or a record that the end cuts off, the rest.
pub fn records(page: &[u8]) -> impl Iterator<Item = &[u8]> {
    let mut rest = page;
    std::iter::from_fn(move || {
        let width = record_width(*rest.first()?).unwrap_or(rest.len());
        let (record, after) = rest.split_at(width.min(rest.len()));
        rest = after;
        Some(record)
    })
}
