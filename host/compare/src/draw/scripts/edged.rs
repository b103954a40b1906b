//! Texts under str, less, equal and patterns, so that those at an edge are looked at to their ends.

use super::Writer;
use crate::draw::pool::Size;
use second::types::{Datatype, Type};
use second::write::*;

/// Patterns for which the last byte of a long text counts.
const ENDS: [&str; 12] =
    ["a$", "xa$", "^x*a$", "^x.*A$", "xb", "xB$", "~$", "^x*$", "^x*.$", "xx*b$", "^x*b", "^x.*[a]"];

impl Writer<'_> {
    /// A block over two URIs, two strings or one of each, of the whole table or of a pattern's quads, that asks about their texts; over one
    /// alone where the table is full.
    pub fn edged(&mut self) -> Bytes {
        let (uri, string) = (Datatype::AnyUri, Datatype::String);
        let two = [[uri, uri], [string, string], [uri, string]][self.rng.weighted(&[5, 3, 2])];
        let count = if self.pool.size == Size::Full { 1 } else { 2 };
        let pairs = two.map(|datatype| (self.unused.pop().unwrap_or(0), Type::Data(datatype)));
        let pairs = &pairs[..count];
        self.scope.extend(pairs);
        let mut cond = self.about_texts(pairs);
        for _ in 0..self.rng.below(3) {
            cond = node(self.rng.one(&[0x52, 0x53]), &[cond, self.about_texts(pairs)]);
        }
        if self.rng.one_in(6) {
            cond = not(cond);
        }
        let mut query = filter(cond);
        if self.rng.one_in(3) {
            for (v, t) in &pairs[..self.rng.within(1, count)] {
                query = both(self.atom_for(*v, *t), query);
            }
        }
        let written: Vec<(u8, u8)> =
            pairs.iter().map(|(v, t)| (*v, if self.rng.one_in(12) { 0 } else { t.code() })).collect();
        let then = if self.rng.one_in(3) { self.script(2) } else { success() };
        block(!self.rng.one_in(4), &written, query, then)
    }

    /// A question about the texts of two variables, or of one and a constant.
    fn about_texts(&mut self, pairs: &[(u8, Type)]) -> Bytes {
        let (x, t) = pairs[0];
        let (other, u) = match pairs.get(1) {
            Some((y, u)) if !self.rng.one_in(5) => (var(*y), *u),
            _ => (self.pool.with_type(self.rng, t).map_or_else(|| var(x), con), t),
        };
        let as_texts = t != u || self.rng.one_in(5);
        let [a, b] = if as_texts { [str(var(x)), str(other)] } else { [var(x), other] };
        let bad = usize::from(!self.rng.one_in(60));
        match self.rng.below(6) {
            0..=1 => less(a, b),
            2 => equal(a, b),
            3 => not(equal(a, b)),
            _ => regex(self.rng.one(&ENDS[..ENDS.len() - bad]), str(var(x))),
        }
    }
}
