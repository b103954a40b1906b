//! Strings under less.

use super::Writer;
use second::types::{Datatype, Type};
use second::write::*;

impl Writer<'_> {
    /// A block over two strings, of the whole table or of a pattern's quads, that asks which of them is less.
    pub fn sorted(&mut self) -> Bytes {
        let string = Type::Data(Datatype::String);
        let [x, y] = [0, 1].map(|other| self.unused.pop().unwrap_or(other));
        self.scope.extend([(x, string), (y, string)]);
        let mut sides = match self.rng.below(8) {
            0 => [str(var(x)), var(y)],
            1 => [var(x), self.name(string)],
            2 => [var(x), str(self.name(Type::Data(Datatype::AnyUri)))],
            _ => [var(x), var(y)],
        };
        self.rng.shuffle(&mut sides);
        let [a, b] = sides;
        let asked = less(a.clone(), b.clone());
        let cond = match self.rng.below(12) {
            0 | 1 => not(asked),
            2 => node(self.rng.one(&[0x52, 0x53]), &[asked, self.cond(2)]),
            3 => node(0x53, &[not(asked), not(less(b, a))]),
            4 => node(0x53, &[asked, less(b, self.name(string))]),
            // Of the same text, by tag.
            5..=8 => node(0x53, &[equal(str(a), str(b)), asked]),
            _ => asked,
        };
        let query = match self.rng.below(5) {
            0 => both(self.atom_for(x, string), filter(cond)),
            1 => both(both(self.atom_for(x, string), filter(cond)), self.atom_for(y, string)),
            _ => filter(cond),
        };
        let written = |open: bool| if open { 0 } else { string.code() };
        let pairs = [(x, written(self.rng.one_in(8))), (y, written(self.rng.one_in(8)))];
        let then = if self.rng.one_in(3) { self.script(2) } else { success() };
        block(!self.rng.one_in(4), &pairs, query, then)
    }
}
