//! One order for quads, as a law over a list of calls: two stations whose terms by number and whose sets of quads agree have the same
//! bytes in both tables. Which order that is, the law does not ask.

use super::{Breach, Difference};
use crate::call::{Call, Station};
use second::eval::Quad;
use std::collections::BTreeSet;
use willetcoffer::limits::SLOT_WIDTH;

/// A store that a call was lent or left.
#[derive(Clone, Debug)]
struct Store {
    /// The used term slots.
    terms: Vec<u8>,
    quads: BTreeSet<Quad>,
    /// Term table and quad table.
    tables: [Vec<u8>; 2],
    /// The call that left it first.
    call: Call,
}

/// The stores of the calls so far, no two of them with the same terms and quads.
#[derive(Clone, Debug, Default)]
pub struct Stores(Vec<Store>);

impl Stores {
    /// Holds the station that a call has left to the law. Where a page has left a store of two quads or more that was there before,
    /// says how.
    pub fn meet(&mut self, call: &Call, station: &Station) -> Result<Option<&'static str>, Difference> {
        let terms = station.term_table[..SLOT_WIDTH * station.used()].to_vec();
        let quads: BTreeSet<Quad> = station.quads().into_iter().collect();
        let Some(store) = self.0.iter().find(|store| store.terms == terms && store.quads == quads) else {
            let tables = [station.term_table.clone(), station.quad_table.clone()];
            self.0.push(Store { terms, quads, tables, call: call.clone() });
            return Ok(None);
        };
        if store.tables.each_ref() != [&station.term_table, &station.quad_table] {
            let what = format!("{} quads and their terms as before, in other bytes", quads.len());
            return Err(Difference::new(Breach::Stores, what));
        }
        let again = if store.call == *call { "by the same page" } else { "by another page" };
        Ok(Some(again).filter(|_| matches!(call, Call::Page { .. }) && quads.len() > 1))
    }

    /// How many there are.
    pub fn len(&self) -> usize {
        self.0.len()
    }

    /// Whether there is none.
    pub fn is_empty(&self) -> bool {
        self.0.is_empty()
    }

    /// Forgets those after so many.
    pub fn truncate(&mut self, count: usize) {
        self.0.truncate(count);
    }
}
