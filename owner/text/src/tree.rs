//! A script as a tree. Constants are terms, variables are names; numbers come only with the card.

use std::ops::Range;
use terms::Prefixes;
use willetcoffer::{Datatype, Term, Type};

/// Bytes of the text, or of a card's script where the tree was read from one.
pub type Span = Range<usize>;

/// A part of the tree, with its place.
#[derive(Clone, PartialEq, Eq, Debug)]
pub struct Node<T> {
    /// What it is.
    pub kind: T,
    /// Where it stands.
    pub span: Span,
}

impl<T> Node<T> {
    /// A part at a place.
    pub fn new(kind: T, span: Span) -> Node<T> {
        Node { kind, span }
    }
}

/// A part below another.
pub type Child<T> = Box<Node<T>>;

/// A whole text.
#[derive(Clone, PartialEq, Eq, Debug)]
pub struct Source {
    /// The prefixes.
    pub prefixes: Prefixes,
    /// Variables in the order of their numbers, from 0; the others are numbered by their first pair.
    pub names: Vec<Node<String>>,
    /// Terms that the card lists first, in this order; the script's other constants follow by their first use.
    pub terms: Vec<Node<Term>>,
    /// The schema.
    pub schema: Vec<Entry>,
    /// The script.
    pub script: Node<Script>,
}

/// A schema entry.
#[derive(Clone, PartialEq, Eq, Debug)]
pub struct Entry {
    /// The property.
    pub property: Node<Term>,
    /// The datatype of its objects.
    pub datatype: Datatype,
}

/// A variable or a constant.
#[derive(Clone, PartialEq, Eq, Debug)]
pub enum Name {
    /// A variable, without its `$`.
    Variable(String),
    /// A constant.
    Constant(Term),
}

/// An expression.
#[derive(Clone, PartialEq, Eq, Debug)]
pub enum Expression {
    /// A variable or a constant.
    Name(Name),
    /// The time of the run call.
    Now,
    /// The text of a value.
    Str(Child<Expression>),
    /// The amount of a number.
    Abs(Child<Expression>),
    /// A sum.
    Plus(Child<Expression>, Child<Expression>),
    /// A difference.
    Minus(Child<Expression>, Child<Expression>),
}

/// A boolean.
#[derive(Clone, PartialEq, Eq, Debug)]
pub enum Boolean {
    /// True or false.
    Constant(bool),
    /// Either.
    Or(Child<Boolean>, Child<Boolean>),
    /// Both.
    And(Child<Boolean>, Child<Boolean>),
    /// Not.
    Not(Child<Boolean>),
    /// Whether some part of a text fits a pattern.
    Regex(Child<Expression>, Node<String>),
    /// Whether a string's language tag is in a range.
    LangMatches(Child<Expression>, Node<String>),
    /// Whether two values are equal.
    Equal(Child<Expression>, Child<Expression>),
    /// Whether one value is less than another.
    Less(Child<Expression>, Child<Expression>),
}

/// A query.
#[derive(Clone, PartialEq, Eq, Debug)]
pub enum Query {
    /// Graph, subject, property and object of a stored quad.
    Pattern(Box<[Node<Name>; 4]>),
    /// Both hold.
    Both(Child<Query>, Child<Query>),
    /// One holds.
    Union(Child<Query>, Child<Query>),
    /// A boolean is true.
    Filter(Child<Boolean>),
    /// Holds always.
    Empty,
}

/// A script.
#[derive(Clone, PartialEq, Eq, Debug)]
pub enum Script {
    /// Does nothing.
    Success,
    /// The script, once the graph is fetched.
    FromNamed(Node<Name>, Child<Script>),
    /// Variables, a query, and a script for its answers.
    Block(Box<Block>),
    /// One script, then the other.
    Sequence(Child<Script>, Child<Script>),
}

/// A block: `select .. where`, or `do select .. where`.
#[derive(Clone, PartialEq, Eq, Debug)]
pub struct Block {
    /// Whether it is for each answer (`do`), or for the first one.
    pub each: bool,
    /// The variables that it binds.
    pub pairs: Vec<Pair>,
    /// What has to hold.
    pub query: Node<Query>,
    /// What is done with an answer.
    pub script: Node<Script>,
}

/// A variable that a block binds, and its written type.
#[derive(Clone, PartialEq, Eq, Debug)]
pub struct Pair {
    /// The variable's name, without its `$`.
    pub variable: Node<String>,
    /// Its written type; open where there is none.
    pub written: Option<Type>,
}

impl Node<Script> {
    /// The blocks in the order of the text.
    pub fn blocks(&self) -> Vec<(&Block, &Span)> {
        let mut found = Vec::new();
        let mut left = vec![self];
        while let Some(script) = left.pop() {
            match &script.kind {
                Script::Success => {}
                Script::FromNamed(_, then) => left.push(then),
                Script::Sequence(first, second) => left.extend([&**second, first]),
                Script::Block(block) => {
                    found.push((&**block, &script.span));
                    left.push(&block.script);
                }
            }
        }
        found
    }
}
