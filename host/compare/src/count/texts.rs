//! Texts at an edge, counted by the place that has them.

use super::Coverage;
use crate::call::{Call, Made};
use second::check::Loaded;
use second::edge::EDGES;
use second::limits::SLOT;
use second::page::{self, Triple};
use second::schema::Schema;
use second::term::{trim, Term, Uri};
use second::terms::read_listed;
use std::collections::BTreeSet;
use willetcoffer::Card;

/// The places, each of which has texts that end at each edge.
pub const PLACES: [&str; 9] = [
    "listed URI of",
    "listed string of",
    "schema URI of",
    "subject of",
    "property of",
    "object URI of",
    "object string of",
    "stored URI of",
    "stored string of",
];

/// The places of a page that is published.
pub const PUBLISHED: [&str; 4] =
    ["published subject of", "published property of", "published URI of", "published string of"];

/// Where a property that is skipped begins to differ from one of the schema.
pub const SKIPPED: &str = "skipped property at byte";

/// What a call has, each once.
#[derive(Default)]
pub(super) struct Places(BTreeSet<(&'static str, usize)>);

impl Places {
    pub(super) fn text(&mut self, place: &'static str, text: &[u8]) {
        let length = trim(text).len();
        if EDGES.contains(&length) {
            self.0.insert((place, length));
        }
    }

    pub(super) fn term(&mut self, [uri, string]: [&'static str; 2], term: &Term) {
        match term {
            Term::Uri(text) => self.text(uri, text),
            Term::Str(_, text) => self.text(string, text),
            _ => {}
        }
    }

    /// A property that the schema does not have.
    fn skipped(&mut self, schema: &Schema, property: &Uri) {
        for other in &schema.properties {
            let place = other.iter().zip(property).position(|(a, b)| a != b);
            self.0.extend(place.map(|place| (SKIPPED, place + 1)).filter(|(_, byte)| EDGES.contains(byte)));
        }
    }
}

impl Coverage {
    pub(super) fn places(&mut self, places: Places) {
        for (place, edge) in places.0 {
            self.add(place, edge.to_string());
        }
    }

    /// Counts those of a card that was loaded.
    pub fn card_texts(&mut self, card: &Card) {
        let mut places = Places::default();
        for term in read_listed(&card.terms).iter().flatten() {
            places.term(["listed URI of", "listed string of"], term);
        }
        for property in Schema::read(&card.schema).iter().flat_map(|schema| &schema.properties) {
            places.text("schema URI of", property);
        }
        self.places(places);
    }

    /// Counts those that a call was lent which is not refused: of its page, and in the tables.
    pub fn lent_texts(&mut self, made: &Made, loaded: &Loaded) {
        if let Call::Page { page, .. } = made.call {
            self.page_texts(&loaded.schema, page);
        }
        if let Call::Run { .. } | Call::Page { .. } = made.call {
            self.stored_texts(&made.before.term_table, loaded.terms.len());
        }
    }

    /// Of the records that are not skipped.
    fn page_texts(&mut self, schema: &Schema, page: &[u8]) {
        let mut places = Places::default();
        for Triple { subject, property, object } in page::read(page).iter().flatten() {
            match schema.datatype(property) {
                Some(datatype) if object.has_datatype(datatype) => {
                    places.text("subject of", subject);
                    places.text("property of", property);
                    places.term(["object URI of", "object string of"], object);
                }
                Some(_) => {}
                None => places.skipped(schema, property),
            }
        }
        self.places(places);
    }

    /// Of the terms that pages brought; a load numbers so many before them.
    fn stored_texts(&mut self, term_table: &[u8], loaded: usize) {
        let mut places = Places::default();
        for term in term_table.chunks(SLOT).skip(loaded).map_while(Term::from_slot) {
            places.term(["stored URI of", "stored string of"], &term);
        }
        self.places(places);
    }
}
