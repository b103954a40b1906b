//! Graphs to be published: which, into how much room, and stores with more in a graph than pages bring.

use super::ranks::spoil;
use super::rng::Rng;
use super::tamper::{loaded, tamper};
use super::Draw;
use crate::call::{Call, Station};
use second::eval::Quad;
use second::term::{Term, Uri};
use second::types::Datatype;
use second::write::string;
use std::collections::BTreeSet;
use willetcoffer::limits::{PAGE_LIMIT, QUAD_LIMIT, SLOT_WIDTH, TERM_LIMIT};

/// What a fetched graph is made into.
pub const SWOLLEN: &str = "a graph swollen";

impl Draw {
    /// Whether a graph is published here, one time in so many.
    pub fn publishes(&mut self, in_so_many: usize) -> bool {
        self.publishing.one_in(in_so_many)
    }

    /// Lets the chance for what is published draw from here on; called again, the other one.
    pub fn turn_chance(&mut self) {
        std::mem::swap(&mut self.rng, &mut self.publishing);
    }

    /// A graph to be published, mostly a fetched one, and mostly into as much room as it needs; now and then with a report of another length.
    pub fn publish_call(&mut self, station: &Station) -> Call {
        let rng = &mut self.rng;
        let graph = graph(rng, station);
        let length: usize = station.triples(graph).map(|record| record.len()).sum();
        let room = match rng.below(10) {
            0 | 1 => length.saturating_sub(1),
            2 => 0,
            3 => rng.below(length.max(1)),
            4 => length + 1,
            5 => length + rng.within(2, 400),
            6 => length.max(PAGE_LIMIT),
            _ => length,
        };
        let mut call = Call::publish(graph as usize, room);
        if let (Call::Publish { report, .. }, true) = (&mut call, rng.one_in(30)) {
            *report = rng.one(&[0, *report - 1, *report + 1]);
        }
        call
    }

    /// Spoils the station's ranks now and then, which are not lent to a call that publishes.
    pub fn no_ranks(&mut self, station: &mut Station) {
        if self.rng.one_in(8) {
            spoil(&mut self.rng, &mut station.ranks);
        }
    }

    /// Makes another store of the station: one with a graph swollen, or tampered with. Gives the name of the change.
    pub fn other_store(&mut self, station: &mut Station) -> &'static str {
        let swollen = if self.rng.percent(80) { swell(&mut self.rng, station) } else { None };
        swollen.unwrap_or_else(|| tamper(&mut self.rng, &self.pool, station))
    }
}

/// A graph's number: of a fetched one; of another term, or of none; or of more bits than a term's number has.
fn graph(rng: &mut Rng, station: &Station) -> u64 {
    let fetched = station.fetched();
    match (rng.below(16), rng.pick(&fetched)) {
        (0 | 1, _) | (_, None) => match rng.below(6) {
            0 => rng.one(&[TERM_LIMIT - 1, TERM_LIMIT, usize::from(u16::MAX)]) as u64,
            _ => rng.below(station.used() + 2) as u64,
        },
        (2, Some(graph)) => {
            let graph = *graph as u64;
            rng.one(&[u64::MAX, 1 << 16, (1 << 16) + graph, (1 << 32) + graph, (1 << 63) + graph])
        }
        (_, Some(graph)) => *graph as u64,
    }
}

/// Gives a fetched graph other quads over the terms of the table: a few, some of them of each kind, or as many as there is room for. The store
/// stays sound; it may have more bytes in one graph than a page may have.
fn swell(rng: &mut Rng, station: &mut Station) -> Option<&'static str> {
    let schema = loaded(station)?.schema;
    add_kinds(station);
    let slots = station.term_table.chunks(SLOT_WIDTH);
    let terms: Vec<(u16, Term)> = (0..).zip(slots.map_while(Term::from_slot)).collect();
    let graph = *rng.pick(&station.fetched())? as u16;
    let uri = |(number, term): &(u16, Term)| if let Term::Uri(uri) = term { Some((*number, *uri)) } else { None };
    let uris: Vec<(u16, Uri)> = terms.iter().filter_map(uri).collect();
    let properties: Vec<(u16, Datatype)> =
        uris.iter().filter_map(|(number, uri)| Some((*number, schema.datatype(uri)?))).collect();
    let mut quads: BTreeSet<Quad> = station.quads().into_iter().filter(|quad| quad[0] != graph).collect();
    let room = QUAD_LIMIT.saturating_sub(quads.len());
    let many = if terms.len() > 60 { 10 } else { 1 };
    let count = match rng.weighted(&[3, 8, many]) {
        0 => rng.within(1, 4),
        1 => rng.within(5, 40),
        _ => QUAD_LIMIT,
    };
    for place in 0..count.min(room) {
        // The first of them go round the kinds of objects.
        let kind = [0x11, 0x12, 0x13, 0x14, 0x15].get(place).copied();
        let fits = |property: &(u16, Datatype), (_, term): &(u16, Term)| {
            term.has_datatype(property.1) && kind.is_none_or(|kind: u8| kind == term.kind())
        };
        let pairs =
            |property| terms.iter().filter(move |term| fits(property, term)).map(move |(n, _)| (property.0, *n));
        let all: Vec<(u16, u16)> = match rng.pick(&properties) {
            Some(property) if kind.is_none() => pairs(property).collect(),
            _ => properties.iter().flat_map(pairs).collect(),
        };
        if let (Some((subject, _)), Some((property, object))) = (rng.pick(&uris).copied(), rng.pick(&all)) {
            quads.insert([graph, subject, *property, *object]);
        }
    }
    station.set_quads(&quads.into_iter().collect::<Vec<_>>());
    Some(SWOLLEN)
}

/// Adds a term of each kind that the table does not have.
fn add_kinds(station: &mut Station) {
    let others = [string("swollen"), Term::Int(-256), Term::Dec(-1), Term::Time(1)];
    for term in others {
        let used = station.used();
        let has = station.term_table.chunks(SLOT_WIDTH).take(used).any(|slot| slot[0] == term.kind());
        if let (false, Some(slot)) = (has, station.term_table.chunks_mut(SLOT_WIDTH).nth(used)) {
            slot.copy_from_slice(&term.slot());
        }
    }
}
