//! Many open variables whose types hang together.

use super::{Writer, URI};
use crate::draw::rng::Rng;
use second::types::{Datatype, Type};
use second::write::*;

impl Writer<'_> {
    /// Nested blocks of up to sixteen variables, most of them open, and one query over all of them in which their types
    /// hang together.
    pub fn tangle(&mut self) -> Bytes {
        let count = self.rng.weighted(&[0, 1, 3, 5, 5, 4, 3, 2, 2, 1, 1, 1, 1, 1, 1, 1, 2]);
        let open = self.rng.within(60, 100);
        for variable in self.unused.split_off(16 - count) {
            let d = self.rng.pick(&self.pool.schema).map_or(Datatype::AnyUri, |(_, d)| *d);
            let types = [URI, Type::Range(d), Type::Range(d), Type::Data(d), Type::Data(d), Type::Data(d)];
            let t = self.rng.one(&types);
            self.scope.push((variable, t));
        }
        let all = self.scope.clone();
        let mut atoms: Vec<Bytes> = Vec::new();
        for (v, t) in &all {
            match (self.rng.below(20), t) {
                (0, _) => {}
                (1..=9, Type::Data(d)) => atoms.push(filter(equal(var(*v), self.expr(*d, 3)))),
                _ => atoms.push(self.atom_for(*v, *t)),
            }
        }
        for _ in 0..self.rng.below(5) {
            atoms.push(if self.rng.one_in(2) { self.pattern() } else { filter(self.cond(2)) });
        }
        if self.rng.one_in(6) {
            let pick = |w: &mut Self| w.rng.pick(&all).map_or_else(|| con(0), |(v, _)| var(*v));
            let (x, y) = (pick(self), pick(self));
            let graph = self.graph();
            atoms.push(if self.rng.one_in(2) { filter(equal(x, y)) } else { pattern(graph.clone(), graph, x, y) });
        }
        let mut query = atoms.into_iter().reduce(|a, b| if self.rng.one_in(9) { union(a, b) } else { both(a, b) });
        let mut script = if self.rng.one_in(4) { from_named(self.name(URI), success()) } else { success() };
        let size = self.rng.within(1, 4);
        for group in all.chunks(size) {
            let written = |rng: &mut Rng, t: &Type| if rng.percent(open) { 0 } else { t.code() };
            let pairs: Vec<(u8, u8)> = group.iter().map(|(v, t)| (*v, written(self.rng, t))).collect();
            script = block(self.rng.one_in(2), &pairs, query.take().unwrap_or_else(empty), script);
        }
        script
    }
}
