//! The calls over bytes, as the C interface has them: inputs are ranks, terms, schema and script, tables are term table, quad
//! table and, where it is written with them, saved run.

use crate::check::{check, read, Typer};
use crate::eval::{Fault, Quad, Store};
use crate::gather::{self, Gathering};
use crate::limits::{
    BUDGET, ENTRY, NUMBER_RECORD, PAGE_REPORT, PUBLISH_REPORT, QUAD_TABLE, RUN_REPORT, SAVED, SCHEMA, SCHEMA_REPORT,
    SLOT, SUGGEST_REPORT, TERM_TABLE, TOTAL_REPORT,
};
use crate::machine::{Machine, State, World};
use crate::number::{self, Reading};
use crate::order::{self, Order};
use crate::publish::{self, Publishing};
use crate::rank::{self, Alphabet, Ranks};
use crate::refusal::{demand, refuse, Refusal};
use crate::saved;
use crate::search::{Naive, Search};
use crate::seek::Seek;
use crate::sound::{sound, Held, Lent};
use crate::suggest::{self, Suggest};
use crate::term::is_second;
use crate::terms::Terms;
use crate::write::entry;
use crate::{arcs, assignments, page as pages};

/// An engine: how it works out types, keeps quads in order, takes ranks, reads numbers, names a written type, gathers schemas,
/// publishes graphs and finds answers.
#[derive(Clone, Copy)]
pub struct Engine<'a> {
    /// How types are worked out.
    pub typer: Typer,
    /// How quads are kept in order.
    pub order: Order,
    /// How ranks are tested and followed.
    pub alphabet: Alphabet,
    /// How the texts of numbers are read.
    pub reading: Reading,
    /// How a written type that would do is found.
    pub suggest: Suggest,
    /// How a schema is gathered from a page.
    pub gathering: Gathering,
    /// How a graph is written as a page.
    pub publishing: Publishing,
    /// How answers are found.
    pub search: &'a dyn Search,
}

/// Added to the number of a fault where the machine meets one. No call on an accepted script returns this.
pub const FAULT: u32 = 1000;

type Outcome = Result<(), Refusal>;

/// The bytes of a lent table, or refusal 1 for another length.
fn lent<const N: usize>(bytes: &mut [u8]) -> Result<&mut [u8; N], Refusal> {
    bytes.try_into().or(Err(Refusal { number: 1, why: "lent table's length" }))
}

/// Whether both tables have their lengths.
fn tables(term_table: &[u8], quad_table: &[u8]) -> Outcome {
    demand(term_table.len() == TERM_TABLE, 1, "term table's length")?;
    demand(quad_table.len() == QUAD_TABLE, 1, "quad table's length")
}

/// The lent ranks where they and both tables have their lengths.
fn lengths<'a>(ranks: &'a [u8], term_table: &[u8], quad_table: &[u8]) -> Result<&'a Ranks, Refusal> {
    tables(term_table, quad_table)?;
    ranks.try_into().or(refuse(1, "ranks' length"))
}

fn write_terms(terms: &Terms, table: &mut [u8]) {
    table.fill(0);
    for (term, slot) in terms.iter().zip(table.chunks_mut(SLOT)) {
        slot.copy_from_slice(&term.slot());
    }
}

fn write_quads(quads: &[Quad], table: &mut [u8]) {
    table.fill(0);
    for (number, bytes) in quads.iter().flatten().zip(table.chunks_mut(2)) {
        bytes.copy_from_slice(&number.to_le_bytes());
    }
}

/// A fault in the place of a refusal.
pub(crate) fn faulted(fault: Fault) -> Refusal {
    Refusal { number: FAULT + fault as u32, why: "fault" }
}

impl Engine<'_> {
    /// The fast engine.
    pub const fn fast() -> Engine<'static> {
        let (order, alphabet, reading) = (order::FAST, rank::FAST, number::fast);
        let (suggest, gathering, publishing) = (suggest::fast, gather::fast, publish::fast);
        Engine { typer: arcs::solve, order, alphabet, reading, suggest, gathering, publishing, search: &Seek }
    }

    /// The engine by the definitions.
    pub const fn plain() -> Engine<'static> {
        let (order, alphabet, reading) = (order::PLAIN, rank::PLAIN, number::plain);
        let (suggest, gathering, publishing) = (suggest::plain, gather::plain, publish::plain);
        Engine { typer: assignments::solve, order, alphabet, reading, suggest, gathering, publishing, search: &Naive }
    }

    /// Refusal 21, straight after 1: whether each rank stands once.
    fn ranked(&self, ranks: &Ranks) -> Outcome {
        demand((self.alphabet.stands)(ranks), 21, "not each rank once")
    }

    /// Loads terms, schema and script: writes both tables and the saved run.
    pub fn load(
        &self,
        [ranks, terms, schema, script]: [&[u8]; 4],
        [term_table, quad_table, saved]: [&mut [u8]; 3],
    ) -> Outcome {
        let ranks = lengths(ranks, term_table, quad_table)?;
        let saved = lent::<SAVED>(saved)?;
        self.ranked(ranks)?;
        let loaded = check(self.typer, terms, schema, script)?;
        write_terms(&loaded.terms, term_table);
        quad_table.fill(0);
        *saved = saved::encode(&loaded.script, &loaded.types, &Machine::fresh(), 0);
        Ok(())
    }

    /// Takes up to `budget` steps: writes the saved run and the report.
    pub fn run(
        &self,
        [ranks, terms, schema, script]: [&[u8]; 4],
        [term_table, quad_table]: [&[u8]; 2],
        saved: &mut [u8],
        (budget, now): (u64, i64),
        report: &mut [u8],
    ) -> Outcome {
        let ranks = lengths(ranks, term_table, quad_table)?;
        let saved = lent::<SAVED>(saved)?;
        let report = lent::<RUN_REPORT>(report)?;
        self.ranked(ranks)?;
        let mut held = sound(self.typer, self.order, &Lent { terms, schema, script, term_table, quad_table, saved })?;
        demand(budget <= BUDGET, 11, "budget")?;
        demand(is_second(now), 11, "now")?;
        let lent = rank::Lent { ranks, alphabet: self.alphabet };
        let store = Store { terms: &held.loaded.terms, quads: &held.quads, now, lent };
        let (script, types) = (&held.loaded.script, &held.loaded.types);
        let world = World { script, types, store, search: self.search };
        let (steps, state) = held.machine.run(&world, budget).map_err(faulted)?;
        *saved = saved::encode(script, types, &held.machine, held.quads.len());
        *report = [0; RUN_REPORT];
        report[..4].copy_from_slice(&(steps as u32).to_le_bytes());
        report[4] = match state {
            State::Ended => 0,
            State::Wanted(_) => 1,
            State::Waiting => 2,
            State::Spent => 3,
        };
        if let State::Wanted(graph) = state {
            report[6..].copy_from_slice(&graph.to_le_bytes());
        }
        Ok(())
    }

    /// Takes a page in: writes both tables, the saved run and the report.
    pub fn page(
        &self,
        [ranks, terms, schema, script]: [&[u8]; 4],
        [term_table, quad_table, saved]: [&mut [u8]; 3],
        graph: u64,
        page: &[u8],
        report: &mut [u8],
    ) -> Outcome {
        let ranks = lengths(ranks, term_table, quad_table)?;
        let saved = lent::<SAVED>(saved)?;
        let report = lent::<PAGE_REPORT>(report)?;
        self.ranked(ranks)?;
        let mut held = sound(self.typer, self.order, &Lent { terms, schema, script, term_table, quad_table, saved })?;
        let terms = &held.loaded.terms;
        let number = usize::try_from(graph).unwrap_or(usize::MAX);
        demand(number < terms.len(), 12, "page graph no term")?;
        demand(terms.is_uri(number), 12, "page graph no URI")?;
        let triples = pages::read(page)?;
        let skipped = pages::take_in(&triples, number as u16, self.order, &mut held)?;
        let Held { loaded, quads, machine } = &held;
        write_terms(&loaded.terms, term_table);
        write_quads(quads, quad_table);
        *saved = saved::encode(&loaded.script, &loaded.types, machine, quads.len());
        *report = skipped.to_le_bytes();
        Ok(())
    }

    /// Writes a fetched graph as a page: writes the front of the page's buffer, which may have any length, and the report. It is lent no
    /// ranks.
    pub fn publish(
        &self,
        [terms, schema, script]: [&[u8]; 3],
        [term_table, quad_table, saved]: [&[u8]; 3],
        graph: u64,
        page: &mut [u8],
        report: &mut [u8],
    ) -> Outcome {
        tables(term_table, quad_table)?;
        let saved = saved.try_into().or(refuse(1, "saved run's length"))?;
        let report = lent::<PUBLISH_REPORT>(report)?;
        let held = sound(self.typer, self.order, &Lent { terms, schema, script, term_table, quad_table, saved })?;
        let fetched = held.machine.fetched.iter().find(|fetched| u64::from(**fetched) == graph);
        let Some(graph) = fetched else { return refuse(22, "graph not fetched") };
        let records = (self.publishing)(&held, *graph);
        let Some(front) = page.get_mut(..records.len()) else { return refuse(23, "buffer shorter than the page") };
        front.copy_from_slice(&records);
        *report = (records.len() as u32).to_le_bytes();
        Ok(())
    }

    /// Tells how many steps the script takes in all: writes the report, 0 where an each block leaves that open. It is lent no ranks.
    pub fn total(&self, [terms, schema, script]: [&[u8]; 3], report: &mut [u8]) -> Outcome {
        let report = lent::<TOTAL_REPORT>(report)?;
        let (_, _, script) = read(terms, schema, script)?;
        *report = (script.total().unwrap_or(0) as u32).to_le_bytes();
        Ok(())
    }

    /// Names one written type with which a script that a load refuses with 9 would load: writes the report. It is lent no ranks.
    pub fn suggest(&self, card: [&[u8]; 3], report: &mut [u8]) -> Outcome {
        let report = lent::<SUGGEST_REPORT>(report)?;
        *report = (self.suggest)(self.typer, card)?.report();
        Ok(())
    }

    /// Reads the text of a number: writes the record of its term. It is lent neither card nor tables.
    pub fn number(&self, text: &[u8], record: &mut [u8]) -> Outcome {
        let record = lent::<NUMBER_RECORD>(record)?;
        record.copy_from_slice(&(self.reading)(text)?.record());
        Ok(())
    }

    /// Gathers a schema from a page: writes its records at the front of the schema, and the report. It is lent neither card nor tables.
    pub fn schema(&self, page: &[u8], schema: &mut [u8], report: &mut [u8]) -> Outcome {
        let schema = lent::<SCHEMA>(schema)?;
        let report = lent::<SCHEMA_REPORT>(report)?;
        let gathered = (self.gathering)(&pages::read(page)?).within_limit()?;
        for ((uri, datatype), record) in gathered.entries.iter().zip(schema.chunks_mut(ENTRY)) {
            record.copy_from_slice(&entry(uri, *datatype));
        }
        report[..4].copy_from_slice(&(gathered.entries.len() as u32).to_le_bytes());
        report[4..].copy_from_slice(&(gathered.left_out as u32).to_le_bytes());
        Ok(())
    }
}
