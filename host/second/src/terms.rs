//! The numbered terms.

use crate::hash::{Map, Set};
use crate::refusal::{demand, refuse, Refusal};
use crate::schema::Schema;
use crate::term::Term;
use crate::types::{Datatype, Type};

/// Terms numbered from 0, all of them different, each with the types that it has.
#[derive(Clone, Debug, Default)]
pub struct Terms {
    list: Vec<Term>,
    ranges: Vec<Option<Datatype>>,
    /// For each term a bit for each type code.
    types: Vec<u16>,
    numbers: Map<Term, usize>,
}

/// Reads all listed term records (refusal 2), in any number.
pub fn read_listed(mut bytes: &[u8]) -> Result<Vec<Term>, Refusal> {
    let mut list = Vec::new();
    while !bytes.is_empty() {
        match Term::read(bytes) {
            Some((term, rest)) => {
                list.push(term);
                bytes = rest;
            }
            None => return refuse(2, "term record"),
        }
    }
    Ok(list)
}

/// Looks for a term listed twice (refusal 3).
pub fn all_different(list: &[Term]) -> Result<(), Refusal> {
    let mut seen = Set::default();
    demand(list.iter().all(|term| seen.insert(term)), 3, "term listed twice")
}

impl Terms {
    /// The terms as loading numbers them: the listed ones, then the schema URIs not among them in schema order.
    pub fn number(listed: &[Term], schema: &Schema) -> Terms {
        let mut terms = Terms::default();
        for term in listed {
            terms.add(*term, schema);
        }
        for uri in &schema.properties {
            terms.add(Term::Uri(*uri), schema);
        }
        terms
    }

    /// The number of a term, which is appended if it is new.
    pub fn add(&mut self, term: Term, schema: &Schema) -> usize {
        let next = self.list.len();
        let number = *self.numbers.entry(term).or_insert(next);
        if number == next {
            let range = match &term {
                Term::Uri(uri) => schema.datatype(uri),
                _ => None,
            };
            let had = Type::all().filter(|t| term.has_type(range, *t));
            self.types.push(had.fold(0, |bits, t| bits | 1 << t.code()));
            self.list.push(term);
            self.ranges.push(range);
        }
        number
    }

    /// How many terms there are.
    pub fn len(&self) -> usize {
        self.list.len()
    }

    /// Whether there is none.
    pub fn is_empty(&self) -> bool {
        self.list.is_empty()
    }

    /// The term of this number.
    pub fn get(&self, number: usize) -> Option<&Term> {
        self.list.get(number)
    }

    /// The number of this term.
    pub fn find(&self, term: &Term) -> Option<usize> {
        self.numbers.get(term).copied()
    }

    /// All terms in their order.
    pub fn iter(&self) -> impl Iterator<Item = &Term> {
        self.list.iter()
    }

    /// The datatype that the schema gives this term's number, if it is a schema URI.
    pub fn range(&self, number: usize) -> Option<Datatype> {
        self.ranges.get(number).copied().flatten()
    }

    /// Whether the term of this number has the type; a number without a term has none.
    pub fn has_type(&self, number: usize, wanted: Type) -> bool {
        self.types.get(number).is_some_and(|bits| bits >> wanted.code() & 1 == 1)
    }

    /// Whether the number is that of a URI.
    pub fn is_uri(&self, number: usize) -> bool {
        matches!(self.get(number), Some(Term::Uri(_)))
    }
}
