//! The records that a tree becomes, in the order of the card.

use crate::tree::{Boolean, Child, Expression, Name, Node, Query, Script, Span};
use willetcoffer::limits::{LANG_MATCHES_TEXT_OFFSET, QUERY_OFFSET, REGEX_TEXT_OFFSET};

/// A record of a tree.
pub struct Record<'a> {
    /// Where its words stand.
    pub span: &'a Span,
    /// How deep it is; the root has 1.
    pub depth: usize,
    /// Its bytes.
    pub width: usize,
    /// The variable or constant that it is.
    pub name: Option<&'a Name>,
}

/// The bytes of a variable's and of a constant's record.
const VARIABLE_WIDTH: usize = 2;
const CONSTANT_WIDTH: usize = 3;

/// The records of a script.
pub fn script_records(script: &Node<Script>) -> Vec<Record<'_>> {
    let mut walk = Walk { records: Vec::new() };
    walk.script(script, 1);
    walk.records
}

/// The names that stand in a query.
pub fn names_in_query(query: &Node<Query>) -> impl Iterator<Item = (&Name, &Span)> {
    let mut walk = Walk { records: Vec::new() };
    walk.query(query, 1);
    walk.records.into_iter().filter_map(|record| Some((record.name?, record.span)))
}

struct Walk<'a> {
    records: Vec<Record<'a>>,
}

impl<'a> Walk<'a> {
    fn record(&mut self, span: &'a Span, depth: usize, width: usize) {
        self.records.push(Record { span, depth, width, name: None });
    }

    fn name(&mut self, name: &'a Name, span: &'a Span, depth: usize) {
        let width = match name {
            Name::Variable(_) => VARIABLE_WIDTH,
            Name::Constant(_) => CONSTANT_WIDTH,
        };
        self.records.push(Record { span, depth, width, name: Some(name) });
    }

    fn script(&mut self, node: &'a Node<Script>, depth: usize) {
        let width = if matches!(node.kind, Script::Block(_)) { QUERY_OFFSET } else { 1 };
        self.record(&node.span, depth, width);
        match &node.kind {
            Script::Success => {}
            Script::FromNamed(graph, then) => {
                self.name(&graph.kind, &graph.span, depth + 1);
                self.script(then, depth + 1);
            }
            Script::Block(block) => {
                self.query(&block.query, depth + 1);
                self.script(&block.script, depth + 1);
            }
            Script::Sequence(first, second) => {
                self.script(first, depth + 1);
                self.script(second, depth + 1);
            }
        }
    }

    fn query(&mut self, node: &'a Node<Query>, depth: usize) {
        self.record(&node.span, depth, 1);
        match &node.kind {
            Query::Empty => {}
            Query::Pattern(names) => names.iter().for_each(|name| self.name(&name.kind, &name.span, depth + 1)),
            Query::Filter(boolean) => self.boolean(boolean, depth + 1),
            Query::Both(a, b) | Query::Union(a, b) => {
                self.query(a, depth + 1);
                self.query(b, depth + 1);
            }
        }
    }

    fn boolean(&mut self, node: &'a Node<Boolean>, depth: usize) {
        let width = match node.kind {
            Boolean::Regex(..) => REGEX_TEXT_OFFSET,
            Boolean::LangMatches(..) => LANG_MATCHES_TEXT_OFFSET,
            _ => 1,
        };
        self.record(&node.span, depth, width);
        match &node.kind {
            Boolean::Constant(_) => {}
            Boolean::Not(a) => self.boolean(a, depth + 1),
            Boolean::Or(a, b) | Boolean::And(a, b) => {
                self.boolean(a, depth + 1);
                self.boolean(b, depth + 1);
            }
            Boolean::Regex(e, _) | Boolean::LangMatches(e, _) => self.expression(e, depth + 1),
            Boolean::Equal(a, b) | Boolean::Less(a, b) => self.expressions(a, b, depth + 1),
        }
    }

    fn expressions(&mut self, a: &'a Child<Expression>, b: &'a Child<Expression>, depth: usize) {
        self.expression(a, depth);
        self.expression(b, depth);
    }

    fn expression(&mut self, node: &'a Node<Expression>, depth: usize) {
        if let Expression::Name(name) = &node.kind {
            return self.name(name, &node.span, depth);
        }
        self.record(&node.span, depth, 1);
        match &node.kind {
            Expression::Name(_) | Expression::Now => {}
            Expression::Str(e) | Expression::Abs(e) => self.expression(e, depth + 1),
            Expression::Plus(a, b) | Expression::Minus(a, b) => self.expressions(a, b, depth + 1),
        }
    }
}
