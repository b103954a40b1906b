//! Scripts without a type in mind, well formed by the grammar alone.

use crate::draw::pool::Pool;
use crate::draw::rng::Rng;
use second::write::*;

/// Draws scripts by the grammar alone.
pub struct Wild<'a> {
    rng: &'a mut Rng,
    pool: &'a Pool,
    unused: Vec<u8>,
    scope: Vec<u8>,
}

const CODES: [u8; 10] = [1, 2, 3, 4, 5, 9, 10, 11, 12, 13];

impl<'a> Wild<'a> {
    /// A writer over these words.
    pub fn new(rng: &'a mut Rng, pool: &'a Pool) -> Wild<'a> {
        let mut unused: Vec<u8> = (0..16).collect();
        rng.shuffle(&mut unused);
        Wild { rng, pool, unused, scope: Vec::new() }
    }

    fn name(&mut self) -> Bytes {
        match self.rng.pick(&self.scope) {
            Some(v) if self.rng.percent(60) => var(*v),
            _ if self.rng.one_in(60) => var(self.rng.below(17) as u8),
            _ => {
                let past_the_end = usize::from(self.rng.one_in(40));
                con(self.rng.below(self.pool.numbered.len() + past_the_end))
            }
        }
    }

    fn expr(&mut self, depth: usize) -> Bytes {
        match self.rng.below(if depth > 3 { 4 } else { 9 }) {
            0..=2 => self.name(),
            3 => now(),
            4 => str(self.expr(depth + 1)),
            5 => abs(self.expr(depth + 1)),
            6 => plus(self.expr(depth + 1), self.expr(depth + 1)),
            7 => minus(self.expr(depth + 1), self.expr(depth + 1)),
            _ => self.name(),
        }
    }

    fn cond(&mut self, depth: usize) -> Bytes {
        match self.rng.below(if depth > 3 { 6 } else { 9 }) {
            0 => vec![0x50],
            1 => vec![0x51],
            2 => regex("a*", self.expr(depth + 1)),
            3 => lang_matches("en", self.expr(depth + 1)),
            4 => equal(self.expr(depth + 1), self.expr(depth + 1)),
            5 => less(self.expr(depth + 1), self.expr(depth + 1)),
            6 => not(self.cond(depth + 1)),
            place => node(if place == 7 { 0x52 } else { 0x53 }, &[self.cond(depth + 1), self.cond(depth + 1)]),
        }
    }

    fn query(&mut self, depth: usize) -> Bytes {
        match self.rng.below(if depth > 3 { 5 } else { 8 }) {
            0..=1 => filter(self.cond(depth + 1)),
            2..=3 => pattern(self.name(), self.name(), self.name(), self.name()),
            4 => empty(),
            5 => union(self.query(depth + 1), self.query(depth + 1)),
            _ => both(self.query(depth + 1), self.query(depth + 1)),
        }
    }

    /// A script by the grammar.
    pub fn script(&mut self, depth: usize) -> Bytes {
        match self.rng.weighted(&[1 + 3 * depth, 3, 6, 3]) {
            0 => success(),
            1 => from_named(self.name(), self.script(depth + 1)),
            3 => sequence(self.script(depth + 1), self.script(depth + 1)),
            _ => {
                let mut pairs = Vec::new();
                for _ in 0..self.rng.below(3) {
                    let again = self.rng.one_in(60);
                    let v = if again { Some(self.rng.below(16) as u8) } else { self.unused.pop() };
                    let written = if self.rng.percent(75) { self.rng.one(&CODES) } else { 0 };
                    pairs.extend(v.map(|v| (v, written)));
                }
                let before = self.scope.len();
                self.scope.extend(pairs.iter().map(|(v, _)| *v));
                let (query, then) = (self.query(depth + 1), self.script(depth + 1));
                // Now and then the scope is left open, so that a variable is used outside its block.
                if !self.rng.one_in(12) {
                    self.scope.truncate(before);
                }
                block(self.rng.one_in(2), &pairs, query, then)
            }
        }
    }
}
