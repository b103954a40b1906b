//! What two engines owe each other on a page that a schema is gathered from, and what either of them owes by itself: 1 and 13 exactly where they
//! are due, nothing written on a refusal, a schema that a load takes and nothing after it, and what the page was written for.

use super::{differs, Breach, Difference};
use crate::call::schema::{in_words, Entries, Gathered, SchemaPage};
use crate::call::{Call, Engine, Station};
use second::page;
use second::schema::Schema;
use std::collections::BTreeSet;
use willetcoffer::limits::{SCHEMA_REPORT_WIDTH, SCHEMA_WIDTH};
use willetcoffer::script::success;
use willetcoffer::Card;

/// Has the schema gathered by both and holds them to what they owe; what they gave.
pub fn judge(page: &SchemaPage, engines: [&dyn Engine; 2]) -> Result<Gathered, Difference> {
    let [gathered, other] = engines.map(|engine| page.gather(engine));
    if gathered != other {
        let place = gathered.schema.iter().zip(&other.schema).position(|(a, b)| a != b);
        let place = place.map_or(String::new(), |at| format!(", the schemas first at byte {at}"));
        return differs(Breach::Answers, format!("{gathered} and {other}{place}"));
    }
    refused(page, &gathered)?;
    if gathered.code == 0 {
        let entries = written(page, &gathered)?;
        for engine in engines {
            loads(engine, &entries.records)?;
        }
    }
    let told = gathered.entries().ok_or(gathered.code);
    match &page.due {
        Some(due) if gathered.code != 1 && told != *due => {
            let due = due.as_ref().map(|due| format!("{}, {} left out", in_words(&due.records), due.left_out));
            differs(Breach::Written, format!("{gathered}, where {due:?} is due"))
        }
        _ => Ok(gathered),
    }
}

/// Whether 1 and 13 are where they are due, and nothing was written on a refusal.
fn refused(page: &SchemaPage, gathered: &Gathered) -> Result<(), Difference> {
    let code = gathered.code;
    if code != 0 && (&gathered.schema, &gathered.report) != (&page.schema, &page.report) {
        return differs(Breach::Kept, format!("refused {code} and changed the schema or the report"));
    }
    let fitting = (page.schema.len(), page.report.len()) == (SCHEMA_WIDTH, SCHEMA_REPORT_WIDTH);
    if (code == 1) == fitting {
        let lengths = (page.schema.len(), page.report.len());
        return differs(Breach::Lent, format!("{code} for schema and report of {lengths:?} bytes"));
    }
    if fitting && (code == 13) == page::read(&page.page).is_ok() {
        return differs(Breach::Page, format!("{code} for a page of {} bytes", page.page.len()));
    }
    Ok(())
}

/// What a call that was not refused has written: so many entries as the report says, a schema of properties that are subjects of the page, and
/// after it the bytes that were there.
fn written(page: &SchemaPage, gathered: &Gathered) -> Result<Entries, Difference> {
    let Some(entries) = gathered.entries() else {
        return differs(Breach::Entries, format!("the report {:02x?}", gathered.report));
    };
    let end = entries.records.len();
    if gathered.schema[end..] != page.schema[end..] {
        return differs(Breach::Rest, format!("bytes changed after the first {end}"));
    }
    let schema = match Schema::read(&entries.records) {
        Ok(schema) => schema,
        Err(refusal) => return differs(Breach::Entries, format!("a schema that meets {}", refusal.number)),
    };
    let triples = page::read(&page.page).unwrap_or_default();
    let subjects: BTreeSet<_> = triples.iter().map(|triple| triple.subject).collect();
    let told = schema.properties.len() + entries.left_out as usize;
    if told > subjects.len() || !schema.properties.iter().all(|property| subjects.contains(property)) {
        let left_out = entries.left_out;
        return differs(Breach::Entries, format!("{} and {left_out} left out", in_words(&entries.records)));
    }
    Ok(entries)
}

/// The law: a load takes what was written.
fn loads(engine: &dyn Engine, records: &[u8]) -> Result<(), Difference> {
    let card = Card { schema: records.to_vec(), ..Card::new(&[], &[], success()) };
    match Station::new(card, 0xaa).call(engine, &Call::Load).code {
        0 => Ok(()),
        code => differs(Breach::Loads, format!("{} refuses the schema with {code}", engine.name())),
    }
}
