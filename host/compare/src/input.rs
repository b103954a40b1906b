//! One input that a call is lent by itself, without a station: from drawing to judging and counting.

mod number;
mod schema;

use crate::call::Engine;
use crate::count::Coverage;
use crate::judge::Difference;
use crate::run::Plan;
use std::fmt::Display;

/// What a call without a station is lent.
pub trait Input: Clone {
    /// What the call gives.
    type Given: Display;

    /// Its word in reports, and the option that makes one again.
    const WORD: &'static str;

    /// How many a plan has.
    fn planned(plan: &Plan) -> u64;

    /// The one of this index.
    fn draw(seed: u64, index: u64) -> Self;

    /// In words, lines each with its end: what it is, then, indented, more about it.
    fn words(&self) -> String;

    /// Makes the call by this engine.
    fn call(&self, engine: &dyn Engine) -> Self::Given;

    /// Makes the call by both and holds them to what they owe; what they gave.
    fn judge(&self, engines: [&dyn Engine; 2]) -> Result<Self::Given, Difference>;

    /// Counts it and what came of it.
    fn count(&self, given: &Self::Given, coverage: &mut Coverage);

    /// The pieces that it is cut down by; joined, they are what is read.
    fn pieces(&self) -> Vec<&[u8]>;

    /// The same with these bytes to be read; what they are written for nobody knows.
    fn with(&self, bytes: Vec<u8>) -> Self;

    /// The same, lent buffers of the right lengths.
    fn fitting(&self) -> Self;

    /// How many bytes are read.
    fn length(&self) -> usize {
        self.pieces().iter().map(|piece| piece.len()).sum()
    }
}
