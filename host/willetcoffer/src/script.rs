//! Scripts, written part by part: a function for each kind of record. What a part may hold is fixed by its type; what the load
//! asks beyond that (scope, types, depth, lengths, patterns) it says itself.
//!
//! A sum past its limit has no value. A comparison or test of it is unknown, and so is the negation of that.

use crate::kinds;
use crate::limits::{BLOCK_WIDTH, LANGUAGE_RANGE_WIDTH, PATTERN_WIDTH};
use crate::types::Type;

/// Parts of a script, each with its records as bytes.
macro_rules! parts {
    ($($(#[$doc:meta])* $part:ident)*) => {$(
        $(#[$doc])*
        #[derive(Clone, PartialEq, Eq, Debug)]
        pub struct $part(Vec<u8>);

        impl AsRef<[u8]> for $part {
            fn as_ref(&self) -> &[u8] {
                &self.0
            }
        }
    )*};
}

parts! {
    /// A variable or a constant.
    Name
    /// An expression; a [`Name`] is one too.
    Expression
    /// A boolean.
    Boolean
    /// A query.
    Query
    /// A script.
    Script
}

impl From<Name> for Expression {
    fn from(name: Name) -> Expression {
        Expression(name.0)
    }
}

impl Script {
    /// Its bytes.
    pub fn into_bytes(self) -> Vec<u8> {
        self.0
    }
}

fn joined(head: &[u8], parts: &[&[u8]]) -> Vec<u8> {
    [head, &parts.concat()].concat()
}

/// A text at the front of a field. One that does not fit makes the record a bad one, which the load refuses with 6.
fn field(kind: u8, text: &str, width: usize) -> Vec<u8> {
    let mut bytes = match text.len() {
        length if length <= width => [&[kind], text.as_bytes()].concat(),
        _ => vec![kind, 0xff],
    };
    bytes.resize(1 + width, 0);
    bytes
}

/// Kind 31: a variable, 0 to 15.
pub fn var(number: u8) -> Name {
    Name(vec![kinds::VARIABLE, number])
}

/// Kind 32: the term of this number.
pub fn con(number: u16) -> Name {
    Name(joined(&[kinds::CONSTANT], &[&number.to_le_bytes()]))
}

/// Kind 41: the time of the run call.
pub fn now() -> Expression {
    Expression(vec![kinds::NOW])
}

/// Kind 42: the text of a value.
pub fn str(e: impl Into<Expression>) -> Expression {
    Expression(joined(&[kinds::STR], &[&e.into().0]))
}

/// Kind 43: the amount of a number.
pub fn abs(e: impl Into<Expression>) -> Expression {
    Expression(joined(&[kinds::ABS], &[&e.into().0]))
}

/// Kind 44.
pub fn plus(a: impl Into<Expression>, b: impl Into<Expression>) -> Expression {
    Expression(joined(&[kinds::PLUS], &[&a.into().0, &b.into().0]))
}

/// Kind 45.
pub fn minus(a: impl Into<Expression>, b: impl Into<Expression>) -> Expression {
    Expression(joined(&[kinds::MINUS], &[&a.into().0, &b.into().0]))
}

/// Kinds 50 and 51.
pub fn boolean(value: bool) -> Boolean {
    Boolean(vec![if value { kinds::TRUE } else { kinds::FALSE }])
}

/// Kind 52.
pub fn or(a: Boolean, b: Boolean) -> Boolean {
    Boolean(joined(&[kinds::OR], &[&a.0, &b.0]))
}

/// Kind 53.
pub fn and(a: Boolean, b: Boolean) -> Boolean {
    Boolean(joined(&[kinds::AND], &[&a.0, &b.0]))
}

/// Kind 54.
pub fn not(a: Boolean) -> Boolean {
    Boolean(joined(&[kinds::NOT], &[&a.0]))
}

/// Kind 55: whether some part of a text fits a pattern.
pub fn regex(pattern: &str, e: impl Into<Expression>) -> Boolean {
    Boolean(joined(&field(kinds::REGEX, pattern, PATTERN_WIDTH), &[&e.into().0]))
}

/// Kind 56: whether a string's language tag is in a range.
pub fn lang_matches(range: &str, e: impl Into<Expression>) -> Boolean {
    Boolean(joined(&field(kinds::LANG_MATCHES, range, LANGUAGE_RANGE_WIDTH), &[&e.into().0]))
}

/// Kind 57.
pub fn equal(a: impl Into<Expression>, b: impl Into<Expression>) -> Boolean {
    Boolean(joined(&[kinds::EQUAL], &[&a.into().0, &b.into().0]))
}

/// Kind 58.
pub fn less(a: impl Into<Expression>, b: impl Into<Expression>) -> Boolean {
    Boolean(joined(&[kinds::LESS], &[&a.into().0, &b.into().0]))
}

/// Kind 61: graph, subject, property and object of a stored quad.
pub fn pattern([graph, subject, property, object]: [Name; 4]) -> Query {
    Query(joined(&[kinds::PATTERN], &[&graph.0, &subject.0, &property.0, &object.0]))
}

/// Kind 62.
pub fn both(a: Query, b: Query) -> Query {
    Query(joined(&[kinds::BOTH], &[&a.0, &b.0]))
}

/// Kind 63.
pub fn union(a: Query, b: Query) -> Query {
    Query(joined(&[kinds::UNION], &[&a.0, &b.0]))
}

/// Kind 64: holds where its boolean is true, not where it is false or unknown.
pub fn filter(a: Boolean) -> Query {
    Query(joined(&[kinds::FILTER], &[&a.0]))
}

/// Kind 65: holds always.
pub fn empty() -> Query {
    Query(vec![kinds::EMPTY])
}

/// Kind 71: does nothing.
pub fn success() -> Script {
    Script(vec![kinds::SUCCESS])
}

/// Kind 72: the script, once the graph is fetched.
pub fn from_named(graph: Name, script: Script) -> Script {
    Script(joined(&[kinds::FROM_NAMED], &[&graph.0, &script.0]))
}

/// Kind 73: variables, each with its written type or open. More than four make the record a bad one.
fn block(mode: u8, variables: &[(u8, Option<Type>)], query: Query, script: Script) -> Script {
    let mut head = vec![kinds::BLOCK, mode, u8::try_from(variables.len()).unwrap_or(u8::MAX)];
    head.extend(variables.iter().flat_map(|(variable, t)| [*variable, t.map_or(0, Type::code)]));
    head.resize(1 + BLOCK_WIDTH, 0);
    Script(joined(&head, &[&query.0, &script.0]))
}

/// Kind 73, mode once: binds the query's first answer and becomes the script; waits while there is none.
pub fn once(variables: &[(u8, Option<Type>)], query: Query, script: Script) -> Script {
    block(0, variables, query, script)
}

/// Kind 73, mode each: the script for one answer after the other.
pub fn each(variables: &[(u8, Option<Type>)], query: Query, script: Script) -> Script {
    block(1, variables, query, script)
}

/// Kind 74: one script, then the other.
pub fn sequence(first: Script, second: Script) -> Script {
    Script(joined(&[kinds::SEQUENCE], &[&first.0, &second.0]))
}
