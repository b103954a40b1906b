//! Scripts that are accepted often: each variable has a type in mind, and the parts are drawn to agree with it.

mod edged;
mod overflowing;
mod sorted;
mod starred;
mod tangle;
mod undecided;

use crate::draw::pool::{datatype, Pool, Size};
use crate::draw::rng::Rng;
use second::term::Term;
use second::types::{Datatype, Type};
use second::write::*;

const URI: Type = Type::Data(Datatype::AnyUri);

/// Patterns that fit some of the strings that [`crate::draw::pool`] draws.
const PATTERNS: [&str; 16] =
    ["", "a", "^a", "b$", "a.*b", ".", "^$", "A*b", "^.*$", "name", "^19.*Z$", "-", "0$", "^", "$", "^[a]"];
/// Language ranges; the last one is bad, as the last pattern.
const RANGES: [&str; 13] = ["*", "*", "*", "en", "en-*", "fr", "en-gb", "e", "-e", "en-", "abcdefgh", "en--*", "en*"];

/// The numbers of the URIs that a case uses as graphs.
pub fn graphs(pool: &Pool) -> Vec<usize> {
    let uris = (0..pool.numbered.len()).filter(|n| matches!(pool.numbered[*n], Term::Uri(_)));
    uris.take(3).collect()
}

/// Draws scripts.
pub struct Writer<'a> {
    rng: &'a mut Rng,
    pool: &'a Pool,
    graphs: Vec<usize>,
    /// Variables that no block binds yet.
    unused: Vec<u8>,
    /// Variables in scope with the types in mind.
    scope: Vec<(u8, Type)>,
    /// Bytes left, roughly.
    room: usize,
}

impl<'a> Writer<'a> {
    /// A writer of scripts of about so many bytes.
    pub fn new(rng: &'a mut Rng, pool: &'a Pool, room: usize) -> Writer<'a> {
        let mut unused: Vec<u8> = (0..16).collect();
        rng.shuffle(&mut unused);
        Writer { rng, pool, graphs: graphs(pool), unused, scope: Vec::new(), room }
    }

    fn spend(&mut self, bytes: usize) -> bool {
        self.room = self.room.saturating_sub(bytes);
        self.room > 0
    }

    /// A script.
    pub fn script(&mut self, depth: usize) -> Bytes {
        if !self.spend(2) {
            return success();
        }
        match self.rng.weighted(&[2 + 4 * depth, 6, 16, 7]) {
            0 => success(),
            1 => from_named(self.graph(), self.script(depth + 1)),
            2 => self.block(depth),
            _ => sequence(self.script(depth + 1), self.script(depth + 1)),
        }
    }

    /// A balanced sequence of blocks that uses up the room.
    pub fn long(&mut self) -> Bytes {
        let mut scripts = Vec::new();
        while self.room > 0 {
            scripts.push(self.block(3));
            self.spend(12);
        }
        while scripts.len() > 1 {
            let pairs = scripts.chunks(2).map(|pair| match pair {
                [first, second] => sequence(first.clone(), second.clone()),
                other => other.concat(),
            });
            scripts = pairs.collect();
        }
        scripts.concat()
    }

    fn type_in_mind(&mut self) -> Type {
        let some = self.rng.pick(&self.pool.schema).map(|(_, d)| *d);
        let d = some.unwrap_or_else(|| datatype(self.rng));
        match self.rng.below(20) {
            0..=8 => URI,
            9..=16 => Type::Data(d),
            17..=18 => Type::Range(d),
            _ => Type::Data(datatype(self.rng)),
        }
    }

    fn block(&mut self, depth: usize) -> Bytes {
        let most = if self.pool.size == Size::Full { 3 } else { 4 };
        let count = self.rng.weighted(&[1, 5, 6, 4, 3]).min(most).min(self.unused.len());
        let fresh: Vec<u8> = self.unused.split_off(self.unused.len() - count);
        let before = self.scope.len();
        for variable in &fresh {
            let t = self.type_in_mind();
            self.scope.push((*variable, t));
        }
        let fresh: Vec<(u8, Type)> = self.scope[before..].to_vec();
        let pairs: Vec<(u8, u8)> = fresh
            .iter()
            .map(|(variable, t)| match self.rng.below(40) {
                0..=21 => (*variable, 0),
                22 => (*variable, self.rng.one(&[1, 2, 3, 4, 5, 9, 10, 11, 12, 13])),
                _ => (*variable, t.code()),
            })
            .collect();
        let query = self.query(&fresh);
        let then = self.script(depth + 1);
        self.scope.truncate(before);
        block(self.rng.one_in(2), &pairs, query, then)
    }

    /// A query in which each of these variables has a place.
    fn query(&mut self, variables: &[(u8, Type)]) -> Bytes {
        let mut atoms: Vec<Bytes> = variables.iter().map(|(v, t)| self.atom_for(*v, *t)).collect();
        if !atoms.is_empty() && self.rng.one_in(25) {
            atoms.pop();
        }
        for _ in 0..self.rng.weighted(&[6, 3, 1]) {
            atoms.push(filter(self.cond(0)));
        }
        if self.rng.one_in(3) || atoms.is_empty() && self.rng.one_in(2) {
            atoms.push(self.pattern());
        }
        self.rng.shuffle(&mut atoms);
        let joined = atoms.into_iter().reduce(|a, b| {
            let small = self.pool.size == Size::Small || variables.len() < 2;
            match self.rng.below(8) {
                0 if small => union(a, b),
                1 => both(b, a),
                _ => both(a, b),
            }
        });
        let query = joined.unwrap_or_else(empty);
        if self.rng.one_in(20) {
            both(query, empty())
        } else {
            query
        }
    }

    fn graph(&mut self) -> Bytes {
        match self.rng.pick(&self.graphs) {
            Some(_) if self.rng.percent(45) => con(self.graphs[0]),
            Some(graph) if self.rng.percent(50) => con(*graph),
            _ => self.name(URI),
        }
    }

    /// A variable in scope or a constant of this type; something else if there is none.
    fn name(&mut self, wanted: Type) -> Bytes {
        let fits: Vec<u8> = self.scope.iter().filter(|(_, t)| t.le(wanted)).map(|(v, _)| *v).collect();
        let variable = self.rng.pick(&fits).copied();
        let constant = self.pool.with_type(self.rng, wanted);
        match (variable, constant) {
            (Some(variable), constant) if constant.is_none() || self.rng.percent(65) => var(variable),
            (_, Some(constant)) => con(constant),
            _ => self.scope.last().map_or_else(|| con(0), |(v, _)| var(*v)),
        }
    }

    /// A property with the datatype of its objects.
    fn property(&mut self) -> (Bytes, Datatype) {
        let in_scope: Vec<(u8, Datatype)> = self
            .scope
            .iter()
            .filter_map(|(v, t)| match t {
                Type::Range(d) => Some((*v, *d)),
                Type::Data(_) => None,
            })
            .collect();
        match (self.rng.pick(&in_scope).copied(), self.rng.pick(&self.pool.schema).map(|(_, d)| *d)) {
            (Some((v, d)), constant) if constant.is_none() || self.rng.one_in(3) => (var(v), d),
            (_, Some(d)) => match self.pool.property_over(self.rng, d) {
                Some(number) => (con(number), d),
                None => (con(0), d),
            },
            _ => (con(0), Datatype::AnyUri),
        }
    }

    fn pattern(&mut self) -> Bytes {
        self.spend(11);
        let (property, d) = self.property();
        pattern(self.graph(), self.name(URI), property, self.name(Type::Data(d)))
    }

    /// A query atom with this variable in a place of its type.
    fn atom_for(&mut self, v: u8, t: Type) -> Bytes {
        self.spend(22);
        match t {
            Type::Range(d) => pattern(self.graph(), self.name(URI), var(v), self.name(Type::Data(d))),
            Type::Data(Datatype::AnyUri) if self.rng.percent(80) => {
                let (property, d) = self.property();
                let object = self.name(Type::Data(d));
                if self.rng.one_in(3) {
                    pattern(var(v), self.name(URI), property, object)
                } else {
                    pattern(self.graph(), var(v), property, object)
                }
            }
            Type::Data(d) => match self.pool.property_over(self.rng, d) {
                Some(property) if self.rng.percent(90) => pattern(self.graph(), self.name(URI), con(property), var(v)),
                _ => filter(equal(var(v), self.expr(d, 1))),
            },
        }
    }

    /// A boolean.
    pub fn cond(&mut self, depth: usize) -> Bytes {
        self.spend(6);
        match self.rng.weighted(&[1, 1, 3, 3, 4, 6, 4, 8, 8]) {
            0 => vec![0x50],
            1 => vec![0x51],
            2 | 3 if depth < 3 => {
                let kind = self.rng.one(&[0x52, 0x53]);
                node(kind, &[self.cond(depth + 1), self.cond(depth + 1)])
            }
            4 if depth < 4 => not(self.cond(depth + 1)),
            5 => {
                let bad = usize::from(!self.rng.one_in(60));
                let text = self.rng.one(&PATTERNS[..PATTERNS.len() - bad]);
                let random: String = (0..self.rng.within(1, 16)).map(|_| self.rng.one(&['a', 'b', '.', 'A'])).collect();
                let text = if self.rng.one_in(8) { &random } else { text };
                regex(text, self.expr(Datatype::String, depth))
            }
            6 => {
                let bad = usize::from(!self.rng.one_in(60));
                let range = self.rng.one(&RANGES[..RANGES.len() - bad]);
                lang_matches(range, self.expr(Datatype::String, depth))
            }
            place => {
                let d = self.common();
                let (a, b) = (self.expr(d, depth), self.expr(d, depth));
                node(if place == 8 { 0x58 } else { 0x57 }, &[a, b])
            }
        }
    }

    /// A datatype to compare by, that of a variable in scope if there is one.
    fn common(&mut self) -> Datatype {
        match self.rng.pick(&self.scope) {
            Some((_, Type::Data(d))) => *d,
            Some((_, Type::Range(_))) => Datatype::AnyUri,
            None => datatype(self.rng),
        }
    }

    /// An expression that has this datatype.
    pub fn expr(&mut self, wanted: Datatype, depth: usize) -> Bytes {
        self.spend(3);
        if depth > 4 || self.rng.percent(55) {
            return self.name(Type::Data(wanted));
        }
        match wanted {
            Datatype::AnyUri => self.name(URI),
            Datatype::DateTime => now(),
            Datatype::String => {
                let inner = if self.rng.one_in(2) { self.common() } else { datatype(self.rng) };
                str(self.expr(inner, depth + 1))
            }
            number => match self.rng.below(3) {
                0 => abs(self.expr(number, depth + 1)),
                1 => plus(self.expr(number, depth + 1), self.expr(number, depth + 1)),
                _ => minus(self.expr(number, depth + 1), self.expr(number, depth + 1)),
            },
        }
    }
}
