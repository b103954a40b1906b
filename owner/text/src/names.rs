//! Every variable and constant of a script, to be changed.

use crate::tree::{Boolean, Expression, Name, Node, Query, Script, Span};

/// What is done with a name at its place.
pub type Change<'a> = &'a mut dyn FnMut(&mut Name, &Span);

/// Changes each name of a script, in the order of the card.
pub fn in_script(node: &mut Node<Script>, change: Change) {
    match &mut node.kind {
        Script::Success => {}
        Script::FromNamed(graph, then) => {
            change(&mut graph.kind, &graph.span);
            in_script(then, change);
        }
        Script::Block(block) => {
            in_query(&mut block.query, change);
            in_script(&mut block.script, change);
        }
        Script::Sequence(first, second) => {
            in_script(first, change);
            in_script(second, change);
        }
    }
}

fn in_query(node: &mut Node<Query>, change: Change) {
    match &mut node.kind {
        Query::Empty => {}
        Query::Pattern(names) => names.iter_mut().for_each(|name| change(&mut name.kind, &name.span)),
        Query::Filter(boolean) => in_boolean(boolean, change),
        Query::Both(a, b) | Query::Union(a, b) => {
            in_query(a, change);
            in_query(b, change);
        }
    }
}

fn in_boolean(node: &mut Node<Boolean>, change: Change) {
    match &mut node.kind {
        Boolean::Constant(_) => {}
        Boolean::Not(a) => in_boolean(a, change),
        Boolean::Or(a, b) | Boolean::And(a, b) => {
            in_boolean(a, change);
            in_boolean(b, change);
        }
        Boolean::Regex(e, _) | Boolean::LangMatches(e, _) => in_expression(e, change),
        Boolean::Equal(a, b) | Boolean::Less(a, b) => {
            in_expression(a, change);
            in_expression(b, change);
        }
    }
}

fn in_expression(node: &mut Node<Expression>, change: Change) {
    match &mut node.kind {
        Expression::Name(name) => change(name, &node.span),
        Expression::Now => {}
        Expression::Str(e) | Expression::Abs(e) => in_expression(e, change),
        Expression::Plus(a, b) | Expression::Minus(a, b) => {
            in_expression(a, change);
            in_expression(b, change);
        }
    }
}
