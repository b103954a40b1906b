//! Graphs as pages: none, one record, a page as long as may be, and a full store in one graph.

use crate::calls::{full_page, full_store};
use crate::texts::Texts;
use compare::call::{Call, Engine, Station};
use willetcoffer::limits::QUAD_LIMIT;
use willetcoffer::BadTerm;

/// A graph to be published: number 0 of the station.
pub struct Published {
    /// What it is.
    pub name: &'static str,
    /// The station.
    pub station: Station,
}

impl Published {
    /// How many quads it has, and so records.
    pub fn quads(&self) -> usize {
        self.station.triples(0).count()
    }

    /// The call, into a buffer that is exact.
    pub fn call(&self) -> Call {
        Call::publish(0, self.station.triples(0).map(|record| record.len()).sum())
    }
}

/// A full store with so many of its quads in graph 0, the others in the other graphs.
fn store(engine: &dyn Engine, records: usize, texts: Texts) -> Result<Station, BadTerm> {
    let mut station = full_store(engine, texts)?;
    let quads = station.quads();
    let in_graph = |(place, [_, s, p, o]): (usize, &[u16; 4])| [u16::from(place >= records), *s, *p, *o];
    let mut quads: Vec<[u16; 4]> = quads.iter().enumerate().map(in_graph).collect();
    quads.sort_unstable();
    station.set_quads(&quads);
    Ok(station)
}

/// The workloads; in all but the first the store is full.
pub fn workloads(engine: &dyn Engine) -> Result<Vec<Published>, BadTerm> {
    let (mut page, call) = full_page(engine, Texts::Short)?;
    assert_eq!(page.call(engine, &call).code, 0);
    let rows = [
        ("publish, a graph of no record", 0, Texts::Short),
        ("publish, a graph of one record", 1, Texts::Short),
        ("publish, all of a full store", QUAD_LIMIT, Texts::Short),
        ("publish, the same with long texts", QUAD_LIMIT, Texts::Long),
    ];
    let mut all = vec![Published { name: "publish, a page of 65,536 bytes", station: page }];
    for (name, records, texts) in rows {
        all.push(Published { name, station: store(engine, records, texts)? });
    }
    Ok(all)
}
