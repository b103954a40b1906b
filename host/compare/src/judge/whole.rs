//! What is taken in is kept whole, as a law about bytes: after a load the term table has the card's terms, after a page the graph's
//! quads are the page's triples.

use super::{Breach, Difference};
use crate::call::{Call, Made, Station};
use crate::records::numbered;
use std::collections::BTreeSet;
use willetcoffer::kinds::{DATE_TIME, DECIMAL, INTEGER, PAGE, STRING, URI};
use willetcoffer::limits::{ENTRY_WIDTH, OBJECT_OFFSET, PROPERTY_OFFSET, TERM_TABLE_WIDTH};
use willetcoffer::page::records;
use willetcoffer::{Card, Datatype, PageReport};

/// Holds a call that was not refused to the law.
pub(super) fn kept_whole(made: &Made) -> Result<(), Difference> {
    let [station, _] = &made.after;
    let broken = match made.call {
        Call::Load => loaded(station),
        Call::Page { graph, page, .. } => taken_in(station, *graph, page, made.answers[0].paged()),
        Call::Run { .. } | Call::Publish { .. } | Call::Total { .. } | Call::Suggest { .. } => None,
    };
    broken.map_or(Ok(()), |what| Err(Difference::new(Breach::Whole, what)))
}

/// How the term table differs from the card's terms and zeros.
fn loaded(station: &Station) -> Option<String> {
    let mut terms = numbered(&station.card).concat();
    terms.resize(TERM_TABLE_WIDTH, 0);
    let place = station.term_table.iter().zip(&terms).position(|(a, b)| a != b)?;
    Some(format!("the term table has another byte than the card at {place}"))
}

/// How the graph's quads, or the count of the records skipped, differ from the page.
fn taken_in(station: &Station, graph: u64, page: &[u8], report: Option<PageReport>) -> Option<String> {
    let (taken, skipped): (Vec<&[u8]>, Vec<&[u8]>) = records(page).partition(|record| takes(&station.card, record));
    let taken: BTreeSet<Vec<u8>> = taken.into_iter().map(<[u8]>::to_vec).collect();
    let stored: Vec<Vec<u8>> = station.triples(graph).collect();
    if stored.len() != taken.len() || !stored.iter().all(|record| taken.contains(record)) {
        return Some(format!("{} triples to take, others or another number stored: {}", taken.len(), stored.len()));
    }
    let told = report.map(|report| report.skipped as usize).filter(|told| *told != skipped.len())?;
    Some(format!("{} skipped, {told} told", skipped.len()))
}

/// Whether the schema has the record's property and takes its object.
fn takes(card: &Card, record: &[u8]) -> bool {
    let property = record.get(PROPERTY_OFFSET..OBJECT_OFFSET);
    let mut entries = card.schema.chunks_exact(ENTRY_WIDTH);
    let entry = entries.find(|entry| entry.get(1..ENTRY_WIDTH - 1) == property);
    entry.is_some_and(|entry| datatypes(record[0].wrapping_sub(PAGE)).contains(&entry[ENTRY_WIDTH - 1]))
}

/// The codes of the datatypes that a literal or URI of this kind has.
fn datatypes(kind: u8) -> Vec<u8> {
    let all: &[Datatype] = match kind {
        URI => &[Datatype::AnyUri],
        STRING => &[Datatype::String],
        INTEGER => &[Datatype::Integer, Datatype::Decimal],
        DECIMAL => &[Datatype::Decimal],
        DATE_TIME => &[Datatype::DateTime],
        _ => &[],
    };
    all.iter().map(|datatype| datatype.code()).collect()
}
