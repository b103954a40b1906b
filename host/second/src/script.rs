//! The script as a tree.
//!
//! Script records (kinds 71 to 74) stand in one list, because the stack names them; what is below them (queries, booleans,
//! expressions) is plain nesting.

use crate::lang::LangRange;
use crate::pattern::Pattern;
use crate::types::Type;

/// A term as a script names it.
#[derive(Clone, Copy, PartialEq, Eq, Debug)]
pub enum Name {
    /// Kind 31: a variable's number.
    Var(u8),
    /// Kind 32: a term's number.
    Const(u16),
}

/// An expression.
#[derive(Clone, Debug)]
pub enum Expr {
    /// Kinds 31 and 32.
    Name(Name),
    /// Kind 41.
    Now,
    /// Kind 42.
    Str(Box<Expr>),
    /// Kind 43.
    Abs(Box<Expr>),
    /// Kind 44.
    Plus(Box<Expr>, Box<Expr>),
    /// Kind 45.
    Minus(Box<Expr>, Box<Expr>),
}

/// A boolean.
#[derive(Clone, Debug)]
pub enum Cond {
    /// Kind 50.
    False,
    /// Kind 51.
    True,
    /// Kind 52.
    Or(Box<Cond>, Box<Cond>),
    /// Kind 53.
    And(Box<Cond>, Box<Cond>),
    /// Kind 54.
    Not(Box<Cond>),
    /// Kind 55.
    Regex(Pattern, Expr),
    /// Kind 56.
    LangMatches(LangRange, Expr),
    /// Kind 57.
    Equal(Expr, Expr),
    /// Kind 58.
    Less(Expr, Expr),
}

/// A query.
#[derive(Clone, Debug)]
pub enum Query {
    /// Kind 61: graph, subject, property, object.
    Pattern([Name; 4]),
    /// Kind 62.
    Both(Box<Query>, Box<Query>),
    /// Kind 63.
    Union(Box<Query>, Box<Query>),
    /// Kind 64, with a bit for each variable in its boolean.
    Filter(Cond, u16),
    /// Kind 65.
    Empty,
}

/// The place of a script record in the list.
pub type NodeId = usize;

/// A variable and its written type, none for an open one.
pub type Pair = (u8, Option<Type>);

/// Kind 73.
#[derive(Clone, Debug)]
pub struct Block {
    /// Mode each; otherwise once.
    pub each: bool,
    /// Its variables with their written types.
    pub pairs: Vec<Pair>,
    /// Its query.
    pub query: Query,
    /// Its script.
    pub then: NodeId,
}

/// What a script record is.
#[derive(Clone, Debug)]
pub enum Kind {
    /// Kind 71.
    Success,
    /// Kind 72.
    FromNamed(Name, NodeId),
    /// Kind 73.
    Block(Block),
    /// Kind 74.
    Sequence(NodeId, NodeId),
}

/// A script record.
#[derive(Clone, Debug)]
pub struct Node {
    /// Where it begins in the script's bytes.
    pub offset: u16,
    /// Its depth, the root being at 1.
    pub depth: usize,
    /// What it is.
    pub kind: Kind,
}

/// A script past refusal 6. The root is the first node; nodes stand in the order of their offsets.
#[derive(Clone, Debug)]
pub struct Script {
    /// All records of kinds 71 to 74.
    pub nodes: Vec<Node>,
}

impl Script {
    /// The record of kinds 71 to 74 that begins at this offset.
    pub fn at(&self, offset: u16) -> Option<NodeId> {
        self.nodes.binary_search_by_key(&offset, |node| node.offset).ok()
    }

    /// How many steps it takes in all, where that is fixed: one for each record, if there is no each block.
    pub fn total(&self) -> Option<usize> {
        let repeats = |node: &Node| matches!(&node.kind, Kind::Block(block) if block.each);
        (!self.nodes.iter().any(repeats)).then_some(self.nodes.len())
    }

    /// All pairs of variable and written type, in script order.
    pub fn pairs(&self) -> impl Iterator<Item = Pair> + '_ {
        self.nodes.iter().flat_map(|node| match &node.kind {
            Kind::Block(block) => block.pairs.clone(),
            _ => Vec::new(),
        })
    }

    /// The written types by variable number; the outer option says whether a block binds the variable.
    pub fn written(&self) -> [Option<Option<Type>>; 16] {
        let mut written = [None; 16];
        for (variable, t) in self.pairs() {
            written[usize::from(variable)] = Some(t);
        }
        written
    }
}

/// Variables as a set: a bit for each.
pub fn bit(variable: u8) -> u16 {
    1 << variable
}

impl Name {
    /// The variables it names.
    pub fn variables(&self) -> u16 {
        match self {
            Name::Var(v) => bit(*v),
            Name::Const(_) => 0,
        }
    }
}

impl Expr {
    /// The variables in it.
    pub fn variables(&self) -> u16 {
        match self {
            Expr::Name(name) => name.variables(),
            Expr::Now => 0,
            Expr::Str(e) | Expr::Abs(e) => e.variables(),
            Expr::Plus(a, b) | Expr::Minus(a, b) => a.variables() | b.variables(),
        }
    }
}

impl Cond {
    /// The variables in it.
    pub fn variables(&self) -> u16 {
        match self {
            Cond::False | Cond::True => 0,
            Cond::Or(a, b) | Cond::And(a, b) => a.variables() | b.variables(),
            Cond::Not(a) => a.variables(),
            Cond::Regex(_, e) | Cond::LangMatches(_, e) => e.variables(),
            Cond::Equal(a, b) | Cond::Less(a, b) => a.variables() | b.variables(),
        }
    }
}

impl Query {
    /// The variables in it.
    pub fn variables(&self) -> u16 {
        match self {
            Query::Pattern(names) => names.iter().fold(0, |bits, name| bits | name.variables()),
            Query::Both(a, b) | Query::Union(a, b) => a.variables() | b.variables(),
            Query::Filter(_, variables) => *variables,
            Query::Empty => 0,
        }
    }
}
