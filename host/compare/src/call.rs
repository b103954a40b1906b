//! Calling: what engines are, what they are lent, and one call made by two of them.

pub mod archive;
pub mod engine;
pub mod evaluator;
pub mod number;
pub mod printer;
pub mod program;
pub mod schema;
mod station;

pub use engine::Engine;
pub use station::{Answer, Call, Station, UNWRITTEN};

use std::time::{Duration, Instant};

/// One call, made by two engines on copies of one station.
pub struct Made<'a> {
    /// The call.
    pub call: &'a Call,
    /// The station before.
    pub before: &'a Station,
    /// The stations after.
    pub after: [Station; 2],
    /// The answers.
    pub answers: [Answer; 2],
    /// How long each took.
    pub times: [Duration; 2],
}

impl<'a> Made<'a> {
    /// Makes the call by both.
    pub fn new(before: &'a Station, call: &'a Call, engines: [&dyn Engine; 2]) -> Made<'a> {
        let mut after = [before.clone(), before.clone()];
        let start = Instant::now();
        let first = after[0].call(engines[0], call);
        let between = Instant::now();
        let second = after[1].call(engines[1], call);
        let times = [between - start, between.elapsed()];
        Made { call, before, after, answers: [first, second], times }
    }

    /// The first engine's station and answer, to go on with.
    pub fn into_first(self) -> (Station, Answer) {
        let ([station, _], [answer, _]) = (self.after, self.answers);
        (station, answer)
    }
}
