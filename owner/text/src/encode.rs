//! From the tree to a card.

use crate::diagnostic::Diagnostic;
use crate::legend::Legend;
use crate::limits;
use crate::scope::{self, Numbers};
use crate::tree::{Boolean, Entry, Expression, Name, Node, Pair, Query, Script, Source, Span};
use crate::walk::script_records;
use std::collections::HashMap;
use willetcoffer::script as card;
use willetcoffer::{Card, Datatype, Term, Type};

/// A card, and what its numbers are called.
#[derive(Clone, PartialEq, Eq, Debug)]
pub struct Encoded {
    /// The card.
    pub card: Card,
    /// Prefixes and variables' names.
    pub legend: Legend,
}

/// The card of a source. Refusals 2 to 7 of its load are said here, with their places; 8 and 9 are left to the load.
pub fn encode(source: &Source) -> Result<Encoded, Diagnostic> {
    let variables = scope::numbers(source)?;
    scope::check(&source.script)?;
    limits::check(source)?;
    let listed = listed(source)?;
    let schema: Vec<(Term, Datatype)> = source.schema.iter().map(|e| (e.property.kind, e.datatype)).collect();
    let constants = constants(&listed, &schema);
    let script = Numbered { variables: &variables, constants }.script(&source.script);
    let legend = Legend::new(source.prefixes.clone(), &variables);
    Ok(Encoded { card: Card::new(&listed, &schema, script), legend })
}

/// The terms that the card lists: those named first, then the script's other constants but for the schema's properties.
pub(crate) fn listed(source: &Source) -> Result<Vec<Term>, Diagnostic> {
    let mut places: HashMap<Term, &Span> = HashMap::new();
    for term in &source.terms {
        if let Some(before) = places.insert(term.kind, &term.span) {
            let error = Diagnostic::new(3, term.span.clone(), "this term is listed twice", "listed again");
            return Err(error.and(before.clone(), "listed here first").help("leave one of the two out"));
        }
        limits::terms(places.len(), &term.span)?;
    }
    properties(source, &mut places)?;
    let mut listed: Vec<Term> = source.terms.iter().map(|term| term.kind).collect();
    for record in script_records(&source.script) {
        let Some(Name::Constant(term)) = record.name else { continue };
        if places.insert(*term, record.span).is_none() {
            listed.push(*term);
            limits::terms(places.len(), record.span)?;
        }
    }
    Ok(listed)
}

/// Adds the schema's properties to the terms, each of which stands there once.
fn properties<'a>(source: &'a Source, places: &mut HashMap<Term, &'a Span>) -> Result<(), Diagnostic> {
    let mut entries: HashMap<Term, &Span> = HashMap::new();
    for Entry { property, .. } in &source.schema {
        if let Some(before) = entries.insert(property.kind, &property.span) {
            let message = "this property stands twice in the schema";
            let error = Diagnostic::new(5, property.span.clone(), message, "here again");
            return Err(error.and(before.clone(), "its first entry").help("leave one of the two out"));
        }
        places.insert(property.kind, &property.span);
        limits::terms(places.len(), &property.span)?;
    }
    Ok(())
}

/// The numbers of the terms: the listed ones, then the schema's that are not among them.
fn constants(listed: &[Term], schema: &[(Term, Datatype)]) -> HashMap<Term, u16> {
    let mut numbers = HashMap::new();
    for term in listed.iter().chain(schema.iter().map(|(property, _)| property)) {
        let next = numbers.len() as u16;
        numbers.entry(*term).or_insert(next);
    }
    numbers
}

struct Numbered<'a> {
    variables: &'a Numbers,
    constants: HashMap<Term, u16>,
}

/// Every name has a number here: [`scope::check`] and [`listed`] have seen to that.
impl Numbered<'_> {
    fn name(&self, name: &Name) -> card::Name {
        match name {
            Name::Variable(variable) => card::var(self.variables[variable]),
            Name::Constant(term) => card::con(self.constants[term]),
        }
    }

    fn script(&self, node: &Node<Script>) -> card::Script {
        match &node.kind {
            Script::Success => card::success(),
            Script::FromNamed(graph, then) => card::from_named(self.name(&graph.kind), self.script(then)),
            Script::Sequence(first, second) => card::sequence(self.script(first), self.script(second)),
            Script::Block(block) => {
                let pair = |pair: &Pair| (self.variables[&pair.variable.kind], pair.written);
                let pairs: Vec<(u8, Option<Type>)> = block.pairs.iter().map(pair).collect();
                let write = if block.each { card::each } else { card::once };
                write(&pairs, self.query(&block.query), self.script(&block.script))
            }
        }
    }

    fn query(&self, node: &Node<Query>) -> card::Query {
        match &node.kind {
            Query::Pattern(names) => card::pattern(std::array::from_fn(|place| self.name(&names[place].kind))),
            Query::Both(a, b) => card::both(self.query(a), self.query(b)),
            Query::Union(a, b) => card::union(self.query(a), self.query(b)),
            Query::Filter(boolean) => card::filter(self.boolean(boolean)),
            Query::Empty => card::empty(),
        }
    }

    fn boolean(&self, node: &Node<Boolean>) -> card::Boolean {
        match &node.kind {
            Boolean::Constant(value) => card::boolean(*value),
            Boolean::Or(a, b) => card::or(self.boolean(a), self.boolean(b)),
            Boolean::And(a, b) => card::and(self.boolean(a), self.boolean(b)),
            Boolean::Not(a) => card::not(self.boolean(a)),
            Boolean::Regex(e, pattern) => card::regex(&pattern.kind, self.expression(e)),
            Boolean::LangMatches(e, range) => card::lang_matches(&range.kind, self.expression(e)),
            Boolean::Equal(a, b) => card::equal(self.expression(a), self.expression(b)),
            Boolean::Less(a, b) => card::less(self.expression(a), self.expression(b)),
        }
    }

    fn expression(&self, node: &Node<Expression>) -> card::Expression {
        match &node.kind {
            Expression::Name(name) => self.name(name).into(),
            Expression::Now => card::now(),
            Expression::Str(e) => card::str(self.expression(e)),
            Expression::Abs(e) => card::abs(self.expression(e)),
            Expression::Plus(a, b) => card::plus(self.expression(a), self.expression(b)),
            Expression::Minus(a, b) => card::minus(self.expression(a), self.expression(b)),
        }
    }
}
