//! Strings under `*`.

use super::Writer;
use second::types::{Datatype, Type};
use second::write::*;

impl Writer<'_> {
    /// A block over one string, of the whole table or of a pattern's quads, that asks `*` about it.
    pub fn starred(&mut self) -> Bytes {
        let string = Type::Data(Datatype::String);
        let v = self.unused.pop().unwrap_or(0);
        self.scope.push((v, string));
        let asked = lang_matches("*", if self.rng.one_in(9) { str(var(v)) } else { var(v) });
        let cond = match self.rng.below(6) {
            0 | 1 => not(asked),
            2 => node(self.rng.one(&[0x52, 0x53]), &[asked, self.cond(2)]),
            3 => node(self.rng.one(&[0x52, 0x53]), &[asked, lang_matches("*", self.name(string))]),
            _ => asked,
        };
        let query = match self.rng.below(4) {
            0 => both(self.atom_for(v, string), filter(cond)),
            1 => both(filter(cond), self.atom_for(v, string)),
            _ => filter(cond),
        };
        let written = if self.rng.one_in(3) { string.code() } else { 0 };
        let then = if self.rng.one_in(3) { self.script(2) } else { success() };
        block(!self.rng.one_in(4), &[(v, written)], query, then)
    }
}
