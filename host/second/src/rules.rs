//! The typing rules, as document 01 states them: whether an assignment of types to the variables types a script.

use crate::script::{Cond, Expr, Kind, Name, Query, Script};
use crate::terms::Terms;
use crate::types::{Datatype, Type};

/// A type for each variable that a block binds, by number.
pub type Env = [Option<Type>; 16];

/// The rules over numbered terms and an assignment.
#[derive(Clone, Copy)]
pub struct Rules<'a> {
    /// The numbered terms, with what the schema says of them.
    pub terms: &'a Terms,
    /// The assignment.
    pub env: &'a Env,
}

const URI: Type = Type::Data(Datatype::AnyUri);

impl Rules<'_> {
    /// A term has the type: a variable, if its own is below; a constant, if its term does.
    fn name_has(&self, name: &Name, wanted: Type) -> bool {
        match name {
            Name::Var(v) => self.env[usize::from(*v)].is_some_and(|own| own.le(wanted)),
            Name::Const(number) => self.terms.has_type(usize::from(*number), wanted),
        }
    }

    /// An expression has the datatype.
    fn expr_has(&self, expr: &Expr, wanted: Datatype) -> bool {
        match expr {
            Expr::Name(name) => self.name_has(name, Type::Data(wanted)),
            Expr::Now => wanted == Datatype::DateTime,
            Expr::Str(e) => wanted == Datatype::String && Datatype::ALL.into_iter().any(|d| self.expr_has(e, d)),
            Expr::Abs(e) => wanted.le(Datatype::Decimal) && self.expr_has(e, wanted),
            Expr::Plus(a, b) | Expr::Minus(a, b) => {
                wanted.le(Datatype::Decimal) && self.expr_has(a, wanted) && self.expr_has(b, wanted)
            }
        }
    }

    /// A boolean is well typed.
    pub fn cond(&self, cond: &Cond) -> bool {
        match cond {
            Cond::False | Cond::True => true,
            Cond::Or(a, b) | Cond::And(a, b) => self.cond(a) && self.cond(b),
            Cond::Not(a) => self.cond(a),
            Cond::Regex(_, e) | Cond::LangMatches(_, e) => self.expr_has(e, Datatype::String),
            Cond::Equal(a, b) | Cond::Less(a, b) => {
                Datatype::ALL.into_iter().any(|d| self.expr_has(a, d) && self.expr_has(b, d))
            }
        }
    }

    /// A pattern is well typed.
    pub fn pattern(&self, [graph, subject, property, object]: &[Name; 4]) -> bool {
        let ends = self.name_has(graph, URI) && self.name_has(subject, URI);
        let datatype = match property {
            Name::Const(number) => self.terms.range(usize::from(*number)),
            Name::Var(v) => match self.env[usize::from(*v)] {
                Some(Type::Range(d)) => Some(d),
                _ => None,
            },
        };
        ends && datatype.is_some_and(|d| self.name_has(object, Type::Data(d)))
    }

    /// A query is well typed.
    pub fn query(&self, query: &Query) -> bool {
        match query {
            Query::Pattern(names) => self.pattern(names),
            Query::Both(a, b) | Query::Union(a, b) => self.query(a) && self.query(b),
            Query::Filter(cond, _) => self.cond(cond),
            Query::Empty => true,
        }
    }

    /// A term to fetch is well typed.
    pub fn from_named(&self, name: &Name) -> bool {
        self.name_has(name, URI)
    }

    /// The script is well typed: all its records are.
    pub fn script(&self, script: &Script) -> bool {
        script.nodes.iter().all(|node| match &node.kind {
            Kind::Success | Kind::Sequence(..) => true,
            Kind::FromNamed(name, _) => self.from_named(name),
            Kind::Block(block) => self.query(&block.query),
        })
    }
}
