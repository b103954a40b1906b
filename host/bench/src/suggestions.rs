//! Cards that a load refuses with 9, for the suggest call.

use crate::calls::{before_load, joined};
use crate::texts::Texts;
use compare::call::Station;
use willetcoffer::limits::{PAIR_LIMIT, SCRIPT_LIMIT};
use willetcoffer::script::*;
use willetcoffer::BadTerm;

/// A row's card: of so many open variables the last ones, so many, are used nowhere, and the others are numbers.
#[derive(Clone, Copy)]
pub struct Undecided {
    /// Open variables.
    pub open: u8,
    /// How many of them are used nowhere.
    pub unused: u8,
    /// Whether the script is as long as may be, else it has a comparison for each number.
    pub full: bool,
}

/// The rows: one unused variable, which is named after all others were tried, and two, for which no single type would do.
pub const ROWS: [Undecided; 5] = [
    Undecided { open: 1, unused: 1, full: false },
    Undecided { open: 4, unused: 1, full: false },
    Undecided { open: 16, unused: 1, full: false },
    Undecided { open: 16, unused: 1, full: true },
    Undecided { open: 16, unused: 2, full: true },
];

/// A comparison joined to others.
const COMPARISON: usize = 8;
/// Blocks and what ends them.
const BLOCKS: usize = 4 * 12 + 1;

impl Undecided {
    /// What is asked of it, in words.
    pub fn name(self, call: &str) -> String {
        format!("{call}, {} open{}", self.open, if self.unused > 1 { ", none" } else { "" })
    }

    /// A station before its load, over 512 terms and 128 entries.
    pub fn station(self) -> Result<Station, BadTerm> {
        let mut station = before_load(SCRIPT_LIMIT, 0, Texts::Short)?;
        let numbers = self.open - self.unused;
        let comparisons = if self.full { (SCRIPT_LIMIT - BLOCKS) / COMPARISON } else { usize::from(numbers) };
        let used = (0..numbers).cycle().take(if numbers == 0 { 0 } else { comparisons });
        let parts = used.map(|v| filter(less(var(v), con(1 + u16::from(v))))).collect();
        let mut query = Some(joined(parts));
        let pairs: Vec<_> = (0..self.open).map(|v| (v, None)).collect();
        let blocks = pairs.chunks(PAIR_LIMIT).rev();
        let script = blocks.fold(success(), |script, pairs| once(pairs, query.take().unwrap_or_else(empty), script));
        station.card.script = script.into_bytes();
        Ok(station)
    }
}
