//! Sums past their limits, under not, and, or.

use super::Writer;
use second::types::{Datatype, Type};
use second::write::*;

impl Writer<'_> {
    /// A block over one number, of the whole table or of a pattern's quads, whose filter asks about sums that overflow.
    pub fn overflowing(&mut self) -> Bytes {
        let number = Type::Data(self.rng.one(&[Datatype::Decimal, Datatype::Integer]));
        let v = self.unused.pop().unwrap_or(0);
        self.scope.push((v, number));
        let cond = self.doubtful(v, 0);
        let query = match self.rng.below(4) {
            0 => both(self.atom_for(v, number), filter(cond)),
            1 => both(filter(cond), self.atom_for(v, number)),
            2 => union(filter(cond), filter(self.doubtful(v, 2))),
            _ => filter(cond),
        };
        let written = if self.rng.one_in(2) { number.code() } else { 0 };
        let then = if self.rng.one_in(3) { self.script(2) } else { success() };
        block(!self.rng.one_in(4), &[(v, written)], query, then)
    }

    /// A boolean that is unknown for some numbers.
    fn doubtful(&mut self, v: u8, depth: usize) -> Bytes {
        let join = |w: &mut Self| w.rng.one(&[0x52, 0x53]);
        match self.rng.weighted(&[2 + 2 * depth, 3, 3, 3]) {
            0 => self.doubtful_test(v),
            1 => not(self.doubtful(v, depth + 1)),
            2 => node(join(self), &[self.doubtful(v, depth + 1), self.doubtful(v, depth + 1)]),
            _ => {
                let mut parts = [self.doubtful(v, depth + 1), self.cond(3)];
                self.rng.shuffle(&mut parts);
                node(join(self), &parts)
            }
        }
    }

    /// A comparison, pattern or range of such a sum.
    fn doubtful_test(&mut self, v: u8) -> Bytes {
        let sum = self.overflow(v);
        let other = self.name(Type::Data(Datatype::Decimal));
        match self.rng.below(6) {
            0 => regex(self.rng.one(&["", "1", "^-", ".0$"]), str(sum)),
            1 => lang_matches(self.rng.one(&["*", "en"]), str(sum)),
            2 => equal(other, sum),
            3 => less(other, sum),
            _ => less(sum, other),
        }
    }

    /// A sum or difference that passes its limit for some numbers, if any there are large enough.
    fn overflow(&mut self, v: u8) -> Bytes {
        let large = self.pool.largest().map_or_else(|| var(v), con);
        let sum = match self.rng.below(4) {
            0 => plus(var(v), var(v)),
            1 => minus(var(v), large),
            2 => plus(large.clone(), large),
            _ => plus(var(v), large),
        };
        match self.rng.below(6) {
            0 => abs(sum),
            1 => minus(sum, var(v)),
            _ => sum,
        }
    }
}
