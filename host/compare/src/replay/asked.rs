//! What an evaluator of tuples is asked, without chance.

use super::Tampering;
use crate::call::Station;
use willetcoffer::limits::PAIR_LIMIT;

/// Term numbers for a block's variables, and as many more as there is room for.
pub type Numbers = [u16; PAIR_LIMIT];

/// What an evaluator is asked on a station.
#[derive(Clone, PartialEq, Eq)]
pub struct Asked {
    /// What was changed before, for this question alone.
    pub tampering: Option<Tampering>,
    /// The ranks.
    pub ranks: Vec<u8>,
    /// The value of now.
    pub now: i64,
    /// The tuples.
    pub tuples: Vec<Numbers>,
    /// Bytes that are left, where the input is cut off; or so many with zeros at its end, where it is too long.
    pub left: Option<usize>,
}

impl Asked {
    /// The input: ranks, lengths of the card's parts, the card, both tables, the saved run, now, the tuples. Parts of more than 65,535
    /// bytes have a length that is not theirs.
    pub fn input(&self, station: &Station) -> Vec<u8> {
        let mut station = station.clone();
        if let Some(tampering) = &self.tampering {
            tampering.apply(&mut station);
        }
        let Station { card, term_table, quad_table, saved, .. } = &station;
        let parts = [&card.terms, &card.schema, &card.script];
        let mut input = self.ranks.clone();
        input.extend(parts.map(|part| (part.len() as u16).to_le_bytes()).concat());
        for part in parts.into_iter().chain([term_table, quad_table, saved]) {
            input.extend(part);
        }
        input.extend(self.now.to_le_bytes());
        input.extend(self.tuples.iter().flatten().flat_map(|number| number.to_le_bytes()));
        input.resize(self.left.unwrap_or(input.len()), 0);
        input
    }
}
