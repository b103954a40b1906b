//! Scripts with open variables that the rules do not decide, and what decides some of them.

use super::Writer;
use second::types::{Datatype, Type};
use second::write::*;

/// The codes that a suggestion may name, and one of another family.
const CODES: [u8; 6] = [1, 3, 9, 11, 13, 2];

/// Variables with their written types, and queries that speak of them.
#[derive(Default)]
struct Group {
    pairs: Vec<(u8, u8)>,
    atoms: Vec<Bytes>,
}

impl Writer<'_> {
    /// Blocks with one group of undecided variables, now and then with two or none, beside variables that are decided; now and
    /// then the groups stand in blocks one after the other.
    pub fn undecided(&mut self) -> Bytes {
        let place = self.unused.pop().unwrap_or(0);
        let count = self.rng.weighted(&[1, 12, 6]);
        let mut groups: Vec<Group> = (0..count).map(|_| self.group(place)).collect();
        groups.push(self.decided());
        if !self.rng.one_in(4) {
            let all = |mut joined: Group, group: Group| {
                joined.pairs.extend(group.pairs);
                joined.atoms.extend(group.atoms);
                joined
            };
            groups = vec![groups.into_iter().fold(Group::default(), all)];
        }
        let scripts: Vec<Bytes> = groups.into_iter().map(|group| self.blocks(group)).collect();
        let script = scripts.into_iter().reduce(sequence).unwrap_or_else(success);
        // The place of all patterns, which from named decides.
        match self.rng.below(4) {
            0 => once(&[(place, 1)], empty(), script),
            _ => once(&[(place, 0)], empty(), from_named(var(place), script)),
        }
    }

    /// So many variables that no block binds yet, fewer where there are no more.
    fn fresh(&mut self, count: usize) -> Vec<u8> {
        self.unused.split_off(self.unused.len().saturating_sub(count))
    }

    /// Open variables that hang together and are not decided; now and then one of them has a written type, which may decide them.
    fn group(&mut self, place: u8) -> Group {
        let mut group = match self.rng.weighted(&[3, 3, 4, 10]) {
            0 => Group { pairs: self.open(1), atoms: Vec::new() },
            1 => self.equation(),
            2 => self.properties(place, 1, false),
            _ => {
                let count = self.rng.weighted(&[0, 4, 5, 4]);
                self.properties(place, count, true)
            }
        };
        if self.rng.one_in(6) {
            let at = self.rng.below(group.pairs.len().max(1));
            let code = self.rng.one(&CODES);
            group.pairs.get_mut(at).into_iter().for_each(|pair| pair.1 = code);
        }
        group
    }

    fn open(&mut self, count: usize) -> Vec<(u8, u8)> {
        self.fresh(count).into_iter().map(|v| (v, 0)).collect()
    }

    /// Two or three variables of one datatype, whichever.
    fn equation(&mut self) -> Group {
        let count = self.rng.within(2, 3);
        let pairs = self.open(count);
        let equal_or_less = |w: &mut Self| w.rng.one(&[0x57, 0x58]);
        let atoms = pairs.windows(2).map(|two| node(equal_or_less(self), &[var(two[0].0), var(two[1].0)]));
        let atoms = atoms.map(filter).collect();
        Group { pairs, atoms }
    }

    /// So many property variables and as many objects, one more or one fewer, each property with the objects beside it: numbers, or of any
    /// type.
    fn properties(&mut self, place: u8, count: usize, of_numbers: bool) -> Group {
        let more = self.rng.weighted(&[5, 2, 2]);
        let objects = if more == 2 { (count - 1).max(1) } else { count + more };
        let (p, o) = (self.open(count), self.open(objects));
        let mut atoms = Vec::new();
        for (at, (property, _)) in p.iter().enumerate() {
            for (object, _) in o.iter().skip(at.saturating_sub(1)).take(if at == 0 { 1 } else { 2 }) {
                atoms.push(pattern(var(place), var(place), var(*property), var(*object)));
            }
        }
        // Objects past the last property are its own.
        if let Some((property, _)) = p.last() {
            let rest = o.iter().skip(count);
            atoms.extend(rest.map(|(object, _)| pattern(var(place), var(place), var(*property), var(*object))));
        }
        if of_numbers {
            atoms.extend(o.iter().map(|(object, _)| self.a_number(place, *object)));
        }
        Group { pairs: [p, o].concat(), atoms }
    }

    /// What leaves a variable decimal and integer.
    fn a_number(&mut self, place: u8, v: u8) -> Bytes {
        let property = self.pool.property_over(self.rng, Datatype::Decimal);
        let constant = self.pool.with_type(self.rng, Type::Data(Datatype::Decimal));
        match (self.rng.below(3), property, constant) {
            (0, Some(property), _) => pattern(var(place), var(place), con(property), var(v)),
            (1, _, Some(constant)) => filter(equal(var(v), con(constant))),
            _ => filter(less(abs(var(v)), plus(var(v), var(v)))),
        }
    }

    /// Variables that are decided: by a written type, or by what they are used for.
    fn decided(&mut self) -> Group {
        let mut group = Group::default();
        let count = self.rng.below(4);
        for v in self.fresh(count) {
            let (code, atom) = match self.rng.below(4) {
                0 => (0, Some(filter(regex("a", var(v))))),
                1 => (0, Some(filter(less(var(v), now())))),
                2 => (self.rng.one(&[1, 3, 5, 11]), None),
                _ => (self.rng.one(&[1, 2, 3, 4, 5, 9, 10, 11, 12, 13]), None),
            };
            group.pairs.push((v, code));
            group.atoms.extend(atom);
        }
        group
    }

    /// Blocks, one in the other, that bind the variables in any order, the innermost with the query.
    fn blocks(&mut self, group: Group) -> Bytes {
        let Group { mut pairs, mut atoms } = group;
        self.rng.shuffle(&mut pairs);
        self.rng.shuffle(&mut atoms);
        while atoms.len() > 1 {
            let two = atoms.chunks(2).map(|two| match two {
                [a, b] if self.rng.one_in(8) => union(a.clone(), b.clone()),
                [a, b] => both(a.clone(), b.clone()),
                other => other.concat(),
            });
            atoms = two.collect();
        }
        let mut query = Some(atoms.pop().unwrap_or_else(empty));
        let mut script = success();
        let size = self.rng.within(2, 4);
        for pairs in pairs.chunks(size) {
            script = block(self.rng.one_in(2), pairs, query.take().unwrap_or_else(empty), script);
        }
        script
    }
}
