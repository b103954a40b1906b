//! A schema out of a page.

use crate::kinds;
use crate::limits::{ENTRY_WIDTH, SCHEMA_REPORT_WIDTH, SCHEMA_WIDTH, SLOT_WIDTH, TEXT_WIDTH};
use crate::raw;
use crate::refusal::Refusal;
use crate::term::Term;
use crate::types::Datatype;

/// What a page says of its subjects as properties.
#[derive(Clone, PartialEq, Eq, Debug, Default)]
pub struct GatheredSchema {
    /// The schema's records, as they stand on a [`Card`](crate::Card).
    pub records: Vec<u8>,
    /// How many subjects are left out, for no datatype meets all that is asked of them.
    pub left_out: u32,
}

impl GatheredSchema {
    /// The entries: each property with the datatype of its objects, in the order of their first asking records.
    pub fn entries(&self) -> impl Iterator<Item = (Term, Datatype)> + '_ {
        self.records.chunks_exact(ENTRY_WIDTH).filter_map(|record| {
            let mut slot = [0; SLOT_WIDTH];
            slot[0] = kinds::URI;
            slot[1..=TEXT_WIDTH].copy_from_slice(&record[1..=TEXT_WIDTH]);
            Some((Term::from_slot(&slot)?, Datatype::from_code(record[ENTRY_WIDTH - 1])?))
        })
    }
}

/// Gathers a schema from a page's records whose objects are URIs. One with property `rdfs:range` and `xsd:anyURI`, `xsd:string`, `xsd:decimal`,
/// `xsd:dateTime` or `xsd:integer` asks of its subject at least that datatype, with another URI anyURI; one with property `rdf:type`
/// and `owl:ObjectProperty` asks anyURI. The texts are compared whole and by case, as the page has them: prefixes are not looked at. Each subject of
/// which something is asked gets the least datatype that meets all of it (decimal for integer and decimal), or is left out and counted.
///
/// Refused with 13 for a page over [`PAGE_LIMIT`](crate::limits::PAGE_LIMIT) bytes or with a bad record, then with 19 for more than
/// [`ENTRY_LIMIT`](crate::limits::ENTRY_LIMIT) entries.
///
/// ```
/// use willetcoffer::{page::triple, schema_of_page, script::success, Card, Datatype, Tables, Term};
/// let record = |texts: [&str; 3]| {
///     let [subject, property, object] = texts.map(|text| Term::uri(text).unwrap());
///     triple(&subject, &property, &object).unwrap()
/// };
/// let page = [
///     ["p:speed", "rdfs:range", "xsd:integer"],
///     ["p:home", "rdf:type", "owl:ObjectProperty"],
///     ["p:speed", "rdfs:range", "xsd:decimal"],
///     ["p:built", "rdfs:range", "xsd:dateTime"],
///     ["p:built", "rdfs:range", "xsd:string"],
/// ];
/// let gathered = schema_of_page(&page.map(record).concat())?;
/// let expected = [(Term::uri("p:speed")?, Datatype::Decimal), (Term::uri("p:home")?, Datatype::AnyUri)];
/// assert_eq!(gathered.entries().collect::<Vec<_>>(), expected);
/// assert_eq!(gathered.left_out, 1);
/// // The records stand on a card as they are.
/// let card = Card { schema: gathered.records, ..Card::new(&[], &[], success()) };
/// card.load(&mut Tables::new())?;
/// # Ok::<(), Box<dyn std::error::Error>>(())
/// ```
pub fn schema_of_page(page: &[u8]) -> Result<GatheredSchema, Refusal> {
    let mut records = vec![0; SCHEMA_WIDTH];
    let mut report = [0; SCHEMA_REPORT_WIDTH];
    Refusal::unless_zero(raw::schema(page, &mut records, &mut report))?;
    let [a, b, c, d, left_out @ ..] = report;
    records.truncate(u32::from_le_bytes([a, b, c, d]) as usize * ENTRY_WIDTH);
    Ok(GatheredSchema { records, left_out: u32::from_le_bytes(left_out) })
}
