//! From a card to the tree.

use crate::encode::listed;
use crate::legend::Legend;
use crate::scope::Numbers;
use crate::tree::{Block, Boolean, Child, Entry, Expression, Name, Node, Pair, Query, Script, Source};
use std::collections::HashSet;
use std::error::Error;
use std::fmt;
use terms::Prefixes;
use willetcoffer::kinds;
use willetcoffer::limits::{
    DEPTH_LIMIT, ENTRY_WIDTH, LANGUAGE_RANGE_WIDTH, PAIR_LIMIT, PATTERN_WIDTH, SLOT_WIDTH, TEXT_WIDTH,
};
use willetcoffer::term::body_width;
use willetcoffer::{Card, Datatype, Term, Type, Value};

/// Bytes that are no card.
#[derive(Clone, PartialEq, Eq, Debug)]
pub struct BadCard {
    /// The number of the refusal that a load gives.
    pub refusal: u32,
    /// The part of the card: terms, schema or script.
    pub part: &'static str,
    /// The byte of the part where the bad record begins.
    pub offset: usize,
    /// What is wrong.
    pub message: String,
}

impl fmt::Display for BadCard {
    fn fmt(&self, f: &mut fmt::Formatter<'_>) -> fmt::Result {
        let BadCard { refusal, part, offset, message } = self;
        write!(f, "refused {refusal}: {message}, at byte {offset} of the card's {part}")
    }
}

impl Error for BadCard {}

/// Splits a card's bytes: the terms end before the first kind outside 11 to 15, the schema before the first other than 21.
pub fn split(bytes: &[u8]) -> Card {
    let (terms, rest) = while_width(bytes, body_width);
    let (schema, script) = while_width(rest, |kind| (kind == kinds::ENTRY).then_some(ENTRY_WIDTH - 1));
    Card { terms: terms.to_vec(), schema: schema.to_vec(), script: script.to_vec() }
}

/// The records of which a body's width is known, and the rest; one that the end cuts off is among the records.
fn while_width(bytes: &[u8], body: impl Fn(u8) -> Option<usize>) -> (&[u8], &[u8]) {
    let mut at = 0;
    while let Some(width) = bytes.get(at).and_then(|kind| body(*kind)) {
        at = (at + 1 + width).min(bytes.len());
    }
    bytes.split_at(at)
}

/// Reads a card. Names of variables and prefixes are the legend's where they fit the card; encoding the source gives the same
/// card again.
pub fn decode(card: &Card, legend: &Legend) -> Result<Source, BadCard> {
    let terms = read_terms(&card.terms)?;
    let schema = read_schema(&card.schema)?;
    let mut numbered = terms.clone();
    for (property, _) in &schema {
        if !numbered.contains(property) {
            numbered.push(*property);
        }
    }
    let mut reader = Reader { bytes: &card.script, at: 0, numbered: &numbered, legend, variables: Numbers::new() };
    let script = reader.script(1)?;
    if reader.at < card.script.len() {
        return Err(reader.bad(reader.at, "bytes left over after the script"));
    }
    let variables = reader.variables;
    let schema = schema.into_iter().map(|(property, datatype)| Entry { property: Node::new(property, 0..0), datatype });
    let prefixes = fitting(&legend.prefixes, &numbered);
    let mut source = Source { prefixes, names: Vec::new(), terms: Vec::new(), schema: schema.collect(), script };
    if listed(&source).ok().as_deref() != Some(&terms[..]) {
        source.terms = terms.iter().map(|term| Node::new(*term, 0..0)).collect();
    }
    let names = legend.listed_names(&source, &variables);
    source.names = names.into_iter().map(|name| Node::new(name, 0..0)).collect();
    Ok(source)
}

/// The prefixes, if each URI of the card is what they shorten an IRI to; else none.
fn fitting(prefixes: &Prefixes, terms: &[Term]) -> Prefixes {
    let fits = |term: &Term| match term.value() {
        Value::Uri(text) => prefixes.shortened(&prefixes.full(text)).as_deref() == Ok(text),
        _ => true,
    };
    if terms.iter().all(fits) {
        prefixes.clone()
    } else {
        Prefixes::default()
    }
}

fn read_terms(bytes: &[u8]) -> Result<Vec<Term>, BadCard> {
    let mut terms = Vec::new();
    let mut at = 0;
    while at < bytes.len() {
        let width = 1 + body_width(bytes[at]).unwrap_or(0);
        let term = bytes.get(at..at + width).and_then(|record| {
            let mut slot = [0; SLOT_WIDTH];
            slot[..width].copy_from_slice(record);
            Term::from_slot(&slot)
        });
        let bad = || BadCard { refusal: 2, part: "terms", offset: at, message: "bad term record".to_owned() };
        terms.push((at, term.ok_or_else(bad)?));
        at += width;
    }
    let twice = |offset| BadCard { refusal: 3, part: "terms", offset, message: "a term listed twice".to_owned() };
    each_once(&terms).map_err(twice)?;
    Ok(terms.into_iter().map(|(_, term)| term).collect())
}

/// Says at which offset a term stands that stood before.
fn each_once(terms: &[(usize, Term)]) -> Result<(), usize> {
    let mut seen = HashSet::new();
    match terms.iter().find(|(_, term)| !seen.insert(*term)) {
        Some((offset, _)) => Err(*offset),
        None => Ok(()),
    }
}

fn read_schema(bytes: &[u8]) -> Result<Vec<(Term, Datatype)>, BadCard> {
    let entry = |(place, record): (usize, &[u8])| {
        let read = || {
            let (kind, rest) = record.split_first().filter(|_| record.len() == ENTRY_WIDTH)?;
            let mut slot = [0; SLOT_WIDTH];
            slot[0] = kinds::URI;
            slot[1..1 + TEXT_WIDTH].copy_from_slice(&rest[..TEXT_WIDTH]);
            let datatype = Datatype::ALL.into_iter().find(|datatype| datatype.code() == rest[TEXT_WIDTH])?;
            Some((Term::from_slot(&slot).filter(|_| *kind == kinds::ENTRY)?, datatype))
        };
        let offset = place * ENTRY_WIDTH;
        read().ok_or_else(|| BadCard { refusal: 4, part: "schema", offset, message: "bad schema record".to_owned() })
    };
    let entries: Vec<(Term, Datatype)> = bytes.chunks(ENTRY_WIDTH).enumerate().map(entry).collect::<Result<_, _>>()?;
    let properties: Vec<(usize, Term)> =
        entries.iter().enumerate().map(|(i, entry)| (i * ENTRY_WIDTH, entry.0)).collect();
    let message = "a property that stands twice".to_owned();
    each_once(&properties).map_err(|offset| BadCard { refusal: 5, part: "schema", offset, message })?;
    Ok(entries)
}

struct Reader<'a> {
    bytes: &'a [u8],
    at: usize,
    numbered: &'a [Term],
    legend: &'a Legend,
    /// The variables met in pairs.
    variables: Numbers,
}

type Read<T> = Result<Node<T>, BadCard>;

impl Reader<'_> {
    fn bad(&self, offset: usize, message: &str) -> BadCard {
        BadCard { refusal: 6, part: "script", offset, message: message.to_owned() }
    }

    fn take(&mut self, count: usize) -> Result<&[u8], BadCard> {
        let start = self.at;
        let end = start + count;
        if end > self.bytes.len() {
            return Err(self.bad(start, "the script ends too early"));
        }
        self.at = end;
        Ok(&self.bytes[start..end])
    }

    /// The kind of the next record, at a depth that a card has room for.
    fn kind(&mut self, depth: usize) -> Result<u8, BadCard> {
        if depth > DEPTH_LIMIT {
            return Err(self.bad(self.at, "a record too deep"));
        }
        Ok(self.take(1)?[0])
    }

    fn node<T>(&self, kind: T, start: usize) -> Node<T> {
        Node::new(kind, start..self.at)
    }

    fn field(&mut self, width: usize) -> Result<Node<String>, BadCard> {
        let start = self.at;
        let bytes = self.take(width)?;
        let length = bytes.iter().position(|b| *b == 0).unwrap_or(width);
        let good = bytes[..length].iter().all(|b| (0x20..=0x7e).contains(b)) && bytes[length..].iter().all(|b| *b == 0);
        let text = String::from_utf8_lossy(&bytes[..length]).into_owned();
        if good {
            Ok(self.node(text, start))
        } else {
            Err(self.bad(start, "a bad text field"))
        }
    }

    fn name(&mut self, depth: usize) -> Read<Name> {
        let start = self.at;
        let kind = self.kind(depth)?;
        let name = self.name_of_kind(kind, start)?;
        name.map(|name| self.node(name, start)).ok_or_else(|| self.bad(start, "a variable or a constant was expected"))
    }

    fn name_of_kind(&mut self, kind: u8, start: usize) -> Result<Option<Name>, BadCard> {
        match kind {
            kinds::VARIABLE => {
                let number = self.take(1)?[0];
                Ok(Some(Name::Variable(self.legend.name(number))))
            }
            kinds::CONSTANT => {
                let bytes = self.take(2)?;
                let number = usize::from(u16::from_le_bytes([bytes[0], bytes[1]]));
                let term = self.numbered.get(number).ok_or_else(|| self.bad(start, "no term has this number"))?;
                Ok(Some(Name::Constant(*term)))
            }
            _ => Ok(None),
        }
    }

    fn two<T>(&mut self, depth: usize, read: fn(&mut Self, usize) -> Read<T>) -> Result<(Child<T>, Child<T>), BadCard> {
        Ok((Box::new(read(self, depth + 1)?), Box::new(read(self, depth + 1)?)))
    }

    fn script(&mut self, depth: usize) -> Read<Script> {
        let start = self.at;
        let kind = match self.kind(depth)? {
            kinds::SUCCESS => Script::Success,
            kinds::FROM_NAMED => Script::FromNamed(self.name(depth + 1)?, Box::new(self.script(depth + 1)?)),
            kinds::BLOCK => Script::Block(Box::new(self.block(depth)?)),
            kinds::SEQUENCE => {
                let (first, second) = self.two(depth, Self::script)?;
                Script::Sequence(first, second)
            }
            _ => return Err(self.bad(start, "a script was expected")),
        };
        Ok(self.node(kind, start))
    }

    fn block(&mut self, depth: usize) -> Result<Block, BadCard> {
        let start = self.at;
        let (mode, count) = (self.take(1)?[0], usize::from(self.take(1)?[0]));
        let bytes = self.take(2 * PAIR_LIMIT)?.to_vec();
        let unused = bytes.get(2 * count..).is_some_and(|rest| rest.iter().all(|b| *b == 0));
        if mode > 1 || !unused {
            return Err(self.bad(start, "a block's mode, count or unused pair is bad"));
        }
        let mut pairs = Vec::new();
        for pair in bytes.chunks(2).take(count) {
            let written = Type::from_code(pair[1]);
            if pair[0] > 15 || (written.is_none() && pair[1] != 0) {
                return Err(self.bad(start, "a block's variable or written type is bad"));
            }
            let name = self.legend.name(pair[0]);
            self.variables.insert(name.clone(), pair[0]);
            pairs.push(Pair { variable: self.node(name, start), written });
        }
        let query = self.query(depth + 1)?;
        Ok(Block { each: mode == 1, pairs, query, script: self.script(depth + 1)? })
    }

    fn query(&mut self, depth: usize) -> Read<Query> {
        let start = self.at;
        let kind = match self.kind(depth)? {
            kinds::PATTERN => {
                let below = depth + 1;
                let names = [self.name(below)?, self.name(below)?, self.name(below)?, self.name(below)?];
                Query::Pattern(Box::new(names))
            }
            kind @ (kinds::BOTH | kinds::UNION) => {
                let (a, b) = self.two(depth, Self::query)?;
                if kind == kinds::BOTH {
                    Query::Both(a, b)
                } else {
                    Query::Union(a, b)
                }
            }
            kinds::FILTER => Query::Filter(Box::new(self.boolean(depth + 1)?)),
            kinds::EMPTY => Query::Empty,
            _ => return Err(self.bad(start, "a query was expected")),
        };
        Ok(self.node(kind, start))
    }

    fn boolean(&mut self, depth: usize) -> Read<Boolean> {
        let start = self.at;
        let kind = match self.kind(depth)? {
            kind @ (kinds::FALSE | kinds::TRUE) => Boolean::Constant(kind == kinds::TRUE),
            kind @ (kinds::OR | kinds::AND) => {
                let (a, b) = self.two(depth, Self::boolean)?;
                if kind == kinds::OR {
                    Boolean::Or(a, b)
                } else {
                    Boolean::And(a, b)
                }
            }
            kinds::NOT => Boolean::Not(Box::new(self.boolean(depth + 1)?)),
            kinds::REGEX => {
                let pattern = self.field(PATTERN_WIDTH)?;
                Boolean::Regex(Box::new(self.expression(depth + 1)?), pattern)
            }
            kinds::LANG_MATCHES => {
                let range = self.field(LANGUAGE_RANGE_WIDTH)?;
                Boolean::LangMatches(Box::new(self.expression(depth + 1)?), range)
            }
            kind @ (kinds::EQUAL | kinds::LESS) => {
                let (a, b) = self.two(depth, Self::expression)?;
                if kind == kinds::EQUAL {
                    Boolean::Equal(a, b)
                } else {
                    Boolean::Less(a, b)
                }
            }
            _ => return Err(self.bad(start, "a boolean was expected")),
        };
        Ok(self.node(kind, start))
    }

    fn expression(&mut self, depth: usize) -> Read<Expression> {
        let start = self.at;
        let kind = match self.kind(depth)? {
            kinds::NOW => Expression::Now,
            kinds::STR => Expression::Str(Box::new(self.expression(depth + 1)?)),
            kinds::ABS => Expression::Abs(Box::new(self.expression(depth + 1)?)),
            kind @ (kinds::PLUS | kinds::MINUS) => {
                let (a, b) = self.two(depth, Self::expression)?;
                if kind == kinds::PLUS {
                    Expression::Plus(a, b)
                } else {
                    Expression::Minus(a, b)
                }
            }
            kind => match self.name_of_kind(kind, start)? {
                Some(name) => Expression::Name(name),
                None => return Err(self.bad(start, "an expression was expected")),
            },
        };
        Ok(self.node(kind, start))
    }
}
