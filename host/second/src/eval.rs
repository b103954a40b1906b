//! The untyped evaluation of a query for one tuple: whether it holds, or one of the eight faults. All parts are evaluated.

use crate::edge::{self, Look};
use crate::note::{note, Note};
use crate::pattern::Pattern;
use crate::rank::Lent;
use crate::script::{Cond, Expr, Name, Query};
use crate::term::trim;
use crate::terms::Terms;
use crate::truth::Truth;
use crate::types::Type;
use crate::value::Value;

/// A quad by term numbers: graph, subject, property, object.
pub type Quad = [u16; 4];

/// The eight faults, in the order of document 01.
#[derive(Clone, Copy, PartialEq, Eq, Debug)]
pub enum Fault {
    /// A graph not a URI.
    Graph = 1,
    /// A subject not a URI.
    Subject = 2,
    /// A property not a schema URI.
    Property = 3,
    /// An object without that property's datatype.
    Object = 4,
    /// From named on no URI.
    FromNamed = 5,
    /// Regex or langMatches on no string.
    NoString = 6,
    /// Arithmetic on no number.
    NoNumber = 7,
    /// A comparison with no common datatype.
    Comparison = 8,
}

/// The variables' terms.
pub type Bindings = [Option<u16>; 16];

/// A way to evaluate a query for one tuple: whether it holds, and the count.
pub type Evaluate = fn(&Store, &Query, &Bindings) -> Result<(bool, u32), Fault>;

/// What a query is evaluated over.
#[derive(Clone, Copy)]
pub struct Store<'a> {
    /// The terms in use.
    pub terms: &'a Terms,
    /// The stored quads.
    pub quads: &'a [Quad],
    /// The value of now.
    pub now: i64,
    /// The ranks that less on strings goes by.
    pub lent: Lent<'a>,
}

/// The term number that a name stands for. Scope and soundness see to it that a variable in use is bound.
pub fn number(name: &Name, bindings: &Bindings) -> u16 {
    match name {
        Name::Const(number) => *number,
        Name::Var(v) => bindings[usize::from(*v)].expect("a variable in use is bound"),
    }
}

/// What a part comes to; unknown is noted by what stands above it.
pub(crate) fn noted(truth: Truth, above: Note) -> Truth {
    if truth == Truth::Unknown {
        note(above);
    }
    truth
}

/// Whether a pattern accepts a text; where its last byte decides that, it is noted.
fn accepts(pattern: &Pattern, text: &[u8]) -> bool {
    let accepts = pattern.accepts(text);
    if edge::EDGES.contains(&text.len()) && pattern.accepts(&text[..text.len() - 1]) != accepts {
        edge::look(Look::Pattern, text.len());
    }
    accepts
}

impl Store<'_> {
    /// The value of an expression.
    pub fn expr(&self, expr: &Expr, bindings: &Bindings) -> Result<Value, Fault> {
        match expr {
            Expr::Name(name) => {
                let term = self.terms.get(usize::from(number(name, bindings)));
                Ok(Value::from(term.expect("a term number in use has a term")))
            }
            Expr::Now => Ok(Value::Time(self.now)),
            Expr::Str(e) => Ok(self.expr(e, bindings)?.str()),
            Expr::Abs(e) => self.expr(e, bindings)?.abs().ok_or(Fault::NoNumber),
            Expr::Plus(a, b) => self.arithmetic(a, b, |a, b| a + b, bindings),
            Expr::Minus(a, b) => self.arithmetic(a, b, |a, b| a - b, bindings),
        }
    }

    fn arithmetic(&self, a: &Expr, b: &Expr, f: fn(i64, i64) -> i64, bindings: &Bindings) -> Result<Value, Fault> {
        let (a, b) = (self.expr(a, bindings)?, self.expr(b, bindings)?);
        a.arithmetic(&b, f).ok_or(Fault::NoNumber)
    }

    /// The values of both sides of a comparison.
    fn sides(&self, a: &Expr, b: &Expr, bindings: &Bindings) -> Result<[Value; 2], Fault> {
        Ok([self.expr(a, bindings)?, self.expr(b, bindings)?])
    }

    /// What a boolean comes to.
    pub fn cond(&self, cond: &Cond, bindings: &Bindings) -> Result<Truth, Fault> {
        let part = |cond: &Cond, above: Note| self.part(cond, above, bindings);
        match cond {
            Cond::False => Ok(Truth::False),
            Cond::True => Ok(Truth::True),
            Cond::Or(a, b) => Ok(part(a, Note::Or)?.or(part(b, Note::Or)?)),
            Cond::And(a, b) => Ok(part(a, Note::And)?.and(part(b, Note::And)?)),
            Cond::Not(a) => Ok(part(a, Note::Not)?.not()),
            Cond::Regex(pattern, e) => match self.expr(e, bindings)? {
                Value::Str(string) => Ok(string.map(|(_, text)| accepts(pattern, trim(&text))).into()),
                _ => Err(Fault::NoString),
            },
            Cond::LangMatches(range, e) => match self.expr(e, bindings)? {
                Value::Str(string) => Ok(string.map(|(tag, _)| range.accepts(&tag)).into()),
                _ => Err(Fault::NoString),
            },
            Cond::Equal(a, b) => {
                let [a, b] = self.sides(a, b, bindings)?;
                a.equal(&b).map(Truth::from).ok_or(Fault::Comparison)
            }
            Cond::Less(a, b) => {
                let [a, b] = self.sides(a, b, bindings)?;
                a.less(&b, &self.lent).map(Truth::from).ok_or(Fault::Comparison)
            }
        }
    }

    /// What a part comes to.
    fn part(&self, cond: &Cond, above: Note, bindings: &Bindings) -> Result<Truth, Fault> {
        Ok(noted(self.cond(cond, bindings)?, above))
    }

    /// Whether a filter holds.
    pub fn filter(&self, cond: &Cond, bindings: &Bindings) -> Result<bool, Fault> {
        Ok(self.part(cond, Note::Filter, bindings)?.holds())
    }

    /// Whether a pattern's quad is stored.
    pub fn pattern(&self, names: &[Name; 4], bindings: &Bindings) -> Result<bool, Fault> {
        let quad = names.map(|name| number(&name, bindings));
        let [graph, subject, property, object] = quad.map(usize::from);
        if !self.terms.is_uri(graph) {
            return Err(Fault::Graph);
        }
        if !self.terms.is_uri(subject) {
            return Err(Fault::Subject);
        }
        let datatype = self.terms.range(property).ok_or(Fault::Property)?;
        if !self.terms.has_type(object, Type::Data(datatype)) {
            return Err(Fault::Object);
        }
        Ok(self.quads.contains(&quad))
    }

    /// Whether a query holds.
    pub fn query(&self, query: &Query, bindings: &Bindings) -> Result<bool, Fault> {
        match query {
            Query::Pattern(names) => self.pattern(names, bindings),
            Query::Both(a, b) => Ok(self.query(a, bindings)? & self.query(b, bindings)?),
            Query::Union(a, b) => Ok(self.query(a, bindings)? | self.query(b, bindings)?),
            Query::Filter(cond, _) => self.filter(cond, bindings),
            Query::Empty => Ok(true),
        }
    }
}
