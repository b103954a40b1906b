//! The types of a script by arc consistency.
//!
//! Each variable has a set of types it may still have; each pair of variables that some rule connects has a table of the
//! pairs of types that go together. Types without a partner are struck out until nothing changes. Then
//!
//! - every type left belongs to some typing, so an empty set means that there is none (8): the rules connect only
//!   *families* of types (URIs, strings, numbers, dateTimes) by equality, and within numbers only forbid range(integer)
//!   with a decimal object, which choosing integer and range(decimal) wherever they are left always meets;
//! - the greatest typing, if there is one, gives each variable the greatest of its types left. If a set has no greatest
//!   type, or these types do not go together, there is none (9).
//!
//! Why filters connect families only: an expression that has a datatype has the greatest of its family too, so two sides
//! with one datatype in common are two sides of one family.

use crate::refusal::{refuse, Refusal};
use crate::rules::Env;
use crate::script::{Cond, Expr, Kind, Name, Query, Script};
use crate::terms::Terms;
use crate::types::{Datatype, Type};
use std::cmp::Ordering;

/// A set of types: a bit for each code.
type Set = u16;

fn set(member: impl Fn(Type) -> bool) -> Set {
    Type::all().filter(|t| member(*t)).fold(0, |bits, t| bits | 1 << t.code())
}

fn members(set: Set) -> impl Iterator<Item = Type> {
    Type::all().filter(move |t| set >> t.code() & 1 == 1)
}

/// The types below or equal to a datatype.
fn below(top: Datatype) -> Set {
    set(|t| t.le(Type::Data(top)))
}

/// The greatest datatypes of the four families.
const FAMILIES: [Datatype; 4] = [Datatype::AnyUri, Datatype::String, Datatype::Decimal, Datatype::DateTime];

/// The family of a type, by its greatest datatype.
fn family(t: Type) -> Datatype {
    FAMILIES.into_iter().find(|top| t.le(Type::Data(*top))).unwrap_or(Datatype::AnyUri)
}

/// For each type code of the first variable, the types of the second that go with it.
type Table = [Set; 16];

fn table(together: impl Fn(Type, Type) -> bool) -> Table {
    let mut table = [0; 16];
    for t in Type::all() {
        table[usize::from(t.code())] = set(|u| together(t, u));
    }
    table
}

/// The same pairs, seen from the second variable.
fn turned(pairs: &Table) -> Table {
    table(|u, t| pairs[usize::from(t.code())] >> u.code() & 1 == 1)
}

struct Arcs<'a> {
    terms: &'a Terms,
    /// Types of one family.
    same_family: Table,
    /// A property variable's type and an object variable's.
    property_object: [Table; 2],
    /// The types left of each variable.
    left: [Set; 16],
    /// The connected pairs, the smaller number first, with their tables.
    tables: Vec<(usize, usize, Table)>,
    /// Where a pair's table stands in the list, plus one.
    places: [[u8; 16]; 16],
    /// A rule over constants alone is broken.
    broken: bool,
}

/// The greatest typing, or refusal 8 or 9.
pub fn solve(script: &Script, terms: &Terms) -> Result<Env, Refusal> {
    let written = script.written();
    let left = written.map(|w| match w {
        Some(Some(t)) => 1 << t.code(),
        _ => set(|_| true),
    });
    let property_object = table(|p, o| matches!(p, Type::Range(d) if o.le(Type::Data(d))));
    let mut arcs = Arcs {
        terms,
        same_family: table(|t, u| family(t) == family(u)),
        property_object: [property_object, turned(&property_object)],
        left,
        tables: Vec::new(),
        places: [[0; 16]; 16],
        broken: false,
    };
    for node in &script.nodes {
        match &node.kind {
            Kind::FromNamed(name, _) => arcs.want_name(name, Datatype::AnyUri),
            Kind::Block(block) => arcs.query(&block.query),
            Kind::Success | Kind::Sequence(..) => {}
        }
    }
    arcs.strike_out();
    if arcs.broken || arcs.left.contains(&0) {
        return refuse(8, "no typing");
    }
    let mut env: Env = [None; 16];
    for variable in (0..16).filter(|v| written[*v].is_some()) {
        let types = arcs.left[variable];
        env[variable] = members(types).find(|t| members(types).all(|u| u.le(*t)));
        if env[variable].is_none() {
            return refuse(9, "no typing above the rest");
        }
    }
    let together = arcs.tables.iter().all(|(a, b, table)| match (env[*a], env[*b]) {
        (Some(a), Some(b)) => table[usize::from(a.code())] >> b.code() & 1 == 1,
        _ => true,
    });
    if together {
        Ok(env)
    } else {
        refuse(9, "no typing above the rest")
    }
}

impl Arcs<'_> {
    /// Leaves a variable only these types.
    fn keep(&mut self, variable: u8, types: Set) {
        self.left[usize::from(variable)] &= types;
    }

    /// Connects two different variables, the smaller number first: only pairs of types in the table stay.
    fn connect(&mut self, first: u8, second: u8, pairs: Table) {
        let (first, second) = (usize::from(first), usize::from(second));
        let place = &mut self.places[first][second];
        if *place == 0 {
            self.tables.push((first, second, pairs));
            *place = self.tables.len() as u8;
        }
        let kept = &mut self.tables[usize::from(*place) - 1].2;
        kept.iter_mut().zip(pairs).for_each(|(kept, pairs)| *kept &= pairs);
    }

    fn want_name(&mut self, name: &Name, top: Datatype) {
        match name {
            Name::Var(v) => self.keep(*v, below(top)),
            Name::Const(number) => {
                self.broken |= !self.terms.has_type(usize::from(*number), Type::Data(top));
            }
        }
    }

    /// The expression must be of the family.
    fn want(&mut self, expr: &Expr, top: Datatype) {
        match expr {
            Expr::Name(name) => self.want_name(name, top),
            compound => {
                self.broken |= self.inner(compound) != top;
            }
        }
    }

    /// What a compound expression wants of its parts; gives its own family.
    fn inner(&mut self, expr: &Expr) -> Datatype {
        match expr {
            Expr::Name(Name::Const(number)) => {
                let has = |top: &Datatype| self.terms.has_type(usize::from(*number), Type::Data(*top));
                FAMILIES.into_iter().find(has).unwrap_or(Datatype::AnyUri)
            }
            Expr::Now => Datatype::DateTime,
            Expr::Str(e) => {
                // Any datatype will do; a variable always has one.
                if !matches!(**e, Expr::Name(_)) {
                    self.inner(e);
                }
                Datatype::String
            }
            Expr::Abs(e) => {
                self.want(e, Datatype::Decimal);
                Datatype::Decimal
            }
            Expr::Plus(a, b) | Expr::Minus(a, b) => {
                self.want(a, Datatype::Decimal);
                self.want(b, Datatype::Decimal);
                Datatype::Decimal
            }
            Expr::Name(Name::Var(_)) => unreachable!("a variable has no family of its own"),
        }
    }

    /// Both sides must be of one family.
    fn same(&mut self, a: &Expr, b: &Expr) {
        match (a, b) {
            (Expr::Name(Name::Var(x)), Expr::Name(Name::Var(y))) if x == y => {}
            (Expr::Name(Name::Var(x)), Expr::Name(Name::Var(y))) => {
                self.connect(*x.min(y), *x.max(y), self.same_family);
            }
            (Expr::Name(Name::Var(_)), fixed) => {
                let top = self.inner(fixed);
                self.want(a, top);
            }
            (fixed, other) => {
                let top = self.inner(fixed);
                self.want(other, top);
            }
        }
    }

    fn cond(&mut self, cond: &Cond) {
        match cond {
            Cond::False | Cond::True => {}
            Cond::Or(a, b) | Cond::And(a, b) => {
                self.cond(a);
                self.cond(b);
            }
            Cond::Not(a) => self.cond(a),
            Cond::Regex(_, e) | Cond::LangMatches(_, e) => self.want(e, Datatype::String),
            Cond::Equal(a, b) | Cond::Less(a, b) => self.same(a, b),
        }
    }

    fn query(&mut self, query: &Query) {
        match query {
            Query::Pattern([graph, subject, property, object]) => {
                self.want_name(graph, Datatype::AnyUri);
                self.want_name(subject, Datatype::AnyUri);
                self.pattern(property, object);
            }
            Query::Both(a, b) | Query::Union(a, b) => {
                self.query(a);
                self.query(b);
            }
            Query::Filter(cond, _) => self.cond(cond),
            Query::Empty => {}
        }
    }

    /// Property and object of a pattern.
    fn pattern(&mut self, property: &Name, object: &Name) {
        let terms = self.terms;
        match (property, object) {
            (Name::Const(number), object) => match terms.range(usize::from(*number)) {
                Some(datatype) => self.want_name(object, datatype),
                None => self.broken = true,
            },
            (Name::Var(p), Name::Const(number)) => {
                let has = |d| terms.has_type(usize::from(*number), Type::Data(d));
                self.keep(*p, set(|t| matches!(t, Type::Range(d) if has(d))));
            }
            (Name::Var(p), Name::Var(o)) => {
                let [forth, back] = self.property_object;
                match p.cmp(o) {
                    Ordering::Less => self.connect(*p, *o, forth),
                    Ordering::Greater => self.connect(*o, *p, back),
                    Ordering::Equal => self.keep(*p, set(|t| forth[usize::from(t.code())] >> t.code() & 1 == 1)),
                }
            }
        }
    }

    /// Strikes out types without a partner until nothing changes.
    fn strike_out(&mut self) {
        let mut changed = true;
        while changed {
            changed = false;
            for (a, b, table) in &self.tables {
                let (mut keep_a, mut keep_b) = (0, 0);
                for t in members(self.left[*a]) {
                    let partners = table[usize::from(t.code())] & self.left[*b];
                    keep_b |= partners;
                    if partners != 0 {
                        keep_a |= 1 << t.code();
                    }
                }
                changed |= keep_a != self.left[*a] || keep_b != self.left[*b];
                self.left[*a] = keep_a;
                self.left[*b] = keep_b;
            }
        }
    }
}
