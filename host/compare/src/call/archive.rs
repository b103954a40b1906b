//! The proved engine, through its library.

use super::{Call, Engine, Station};
use willetcoffer::raw::{self, TablesMut, TablesRef};

/// The proved engine.
pub struct Archive;

impl Engine for Archive {
    fn name(&self) -> &'static str {
        "archive"
    }

    fn call(&self, station: &mut Station, call: &Call, report: &mut [u8]) -> u32 {
        let Station { card, ranks, term_table: terms, quad_table: quads, saved, page: buffer } = station;
        match call {
            Call::Load => raw::load(card, TablesMut { ranks, terms, quads }, saved),
            Call::Run { budget, now, .. } => {
                raw::run(card, TablesRef { ranks, terms, quads }, saved, *budget, *now, report)
            }
            Call::Page { graph, page, .. } => {
                raw::page(card, TablesMut { ranks, terms, quads }, saved, *graph, page, report)
            }
            Call::Publish { graph, .. } => {
                raw::publish(card, TablesRef { ranks, terms, quads }, saved, *graph, buffer, report)
            }
            Call::Total { .. } => raw::total(card, report),
            Call::Suggest { .. } => raw::suggest(card, report),
        }
    }

    fn number(&self, text: &[u8], record: &mut [u8]) -> u32 {
        raw::number(text, record)
    }

    fn schema(&self, page: &[u8], schema: &mut [u8], report: &mut [u8]) -> u32 {
        raw::schema(page, schema, report)
    }
}
