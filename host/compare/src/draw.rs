//! Drawing: everything that chance decides in a case.

pub mod damage;
pub mod first;
pub mod next;
pub mod numbers;
pub mod odd;
pub mod pages;
pub mod pool;
pub mod published;
pub mod ranks;
pub mod rng;
pub mod schemas;
pub mod scripts;
pub mod tamper;
pub mod texts;
pub mod tuples;
pub mod wild;

use crate::call::{Call, Station};
use pool::Pool;
use rng::Rng;
use second::check::Loaded;
use second::script::{Kind, Node};
use std::collections::BTreeMap;

/// What a case draws from.
#[derive(Clone, Debug)]
pub struct Draw {
    /// Chance.
    pub rng: Rng,
    /// Chance for what the evaluators are asked, so that a case is the same with them and without.
    asking: Rng,
    /// Chance for what is published, so that the other calls of a case are the same with it and without.
    publishing: Rng,
    /// The words.
    pub pool: Pool,
    /// Triples that make the script's patterns meet, with their graphs' numbers; none before the load.
    pub witnesses: Vec<(usize, Vec<u8>)>,
    /// Whether the loaded script has an each block.
    pub each: bool,
    /// The page that each graph had last, with the graph's number.
    taken: BTreeMap<u64, Vec<u8>>,
    /// Whether calls after the load are lent other ranks now and then.
    restless: bool,
}

/// Whether a node is a block of this mode.
pub fn is_block(node: &Node, each: bool) -> bool {
    matches!(&node.kind, Kind::Block(block) if block.each == each)
}

impl Draw {
    /// Draws the words of a case, its station before the load and the sort of its script.
    pub fn new(seed: u64, index: u64) -> (Draw, Station, &'static str) {
        let mut rng = Rng::new(seed, index);
        let pool = Pool::new(&mut rng);
        let (mut station, sort) = first::station(&mut rng, &pool);
        let (asking, publishing) = (Rng::new(!seed, index), Rng::new(!seed, !index));
        station.ranks = ranks::good(&mut rng);
        let restless = rng.one_in(4);
        let (witnesses, taken) = (Vec::new(), BTreeMap::new());
        let draw = Draw { rng, asking, publishing, pool, witnesses, each: false, taken, restless };
        (draw, station, sort)
    }

    /// Learns what the load has found.
    pub fn loaded(&mut self, loaded: &Loaded) {
        self.witnesses = pages::witnesses(&mut self.rng, loaded);
        self.each = loaded.script.nodes.iter().any(|node| is_block(node, true));
    }

    /// Lends other good ranks from here on, now and then in some cases.
    pub fn other_ranks(&mut self, station: &mut Station) {
        if self.restless && self.rng.one_in(3) {
            station.ranks = ranks::good(&mut self.rng);
        }
    }

    /// Spoils the ranks of a station for one call, and now and then the length of the call's report too.
    pub fn spoiled(&mut self, station: &mut Station, call: &mut Call) {
        ranks::spoil(&mut self.rng, &mut station.ranks);
        if let (Call::Run { report, .. } | Call::Page { report, .. }, true) = (call, self.rng.one_in(8)) {
            *report += self.rng.within(1, 3);
        }
    }

    /// Learns of a call that was not refused.
    pub fn answered(&mut self, call: &Call) {
        if let Call::Page { graph, page, .. } = call {
            self.taken.insert(*graph, page.clone());
        }
    }
}
