//! From triples to page records.

use crate::raptor::Document;
use crate::reason::Reason;
use crate::triple::{Object, Resource, Triple};
use std::collections::HashMap;
use std::fmt;
use terms::{date_time, number, Prefixes};
use willetcoffer::limits::{TAG_WIDTH, TEXT_WIDTH};
use willetcoffer::page::triple as record;
use willetcoffer::term::MILLION;
use willetcoffer::{BadTerm, Term, Value};

/// A page: records, and what is no record.
#[derive(Clone, PartialEq, Eq, Debug, Default)]
pub struct Page {
    /// The records.
    pub bytes: Vec<u8>,
    /// The triples of the records, in their order.
    pub taken: Vec<[Term; 3]>,
    /// The triples that are no records.
    pub left_out: Vec<LeftOut>,
    /// What the reader warned of.
    pub warnings: Vec<String>,
}

/// A triple that is no record.
#[derive(Clone, PartialEq, Eq, Debug)]
pub struct LeftOut {
    /// The triple.
    pub triple: Triple,
    /// Why.
    pub reason: Reason,
}

impl fmt::Display for LeftOut {
    fn fmt(&self, f: &mut fmt::Formatter<'_>) -> fmt::Result {
        write!(f, "{}\n    {}", self.triple, self.reason)
    }
}

/// Where the datatypes of XML Schema stand.
pub(crate) const XSD: &str = "http://www.w3.org/2001/XMLSchema#";
const LANG_STRING: &str = "http://www.w3.org/1999/02/22-rdf-syntax-ns#langString";
/// The datatypes of integers.
const INTEGERS: [&str; 13] = [
    "integer",
    "int",
    "long",
    "short",
    "byte",
    "nonNegativeInteger",
    "positiveInteger",
    "nonPositiveInteger",
    "negativeInteger",
    "unsignedLong",
    "unsignedInt",
    "unsignedShort",
    "unsignedByte",
];

/// The page of a graph, which is named by its IRI: a record for each triple that can be one, in their order.
///
/// Blank nodes are named `_:1@graph`, `_:2@graph` and so on, by the order in which they are first met and the graph as it stands
/// in a record; no IRI of a page or a script begins so.
pub fn page(document: &Document, graph: &str, prefixes: &Prefixes) -> Page {
    let mut converter = Converter { prefixes, graph, blanks: HashMap::new() };
    let mut page = Page { warnings: document.warnings.clone(), ..Page::default() };
    for triple in &document.triples {
        match converter.terms(triple) {
            Ok(terms @ [subject, property, object]) => {
                page.bytes.extend(record(&subject, &property, &object).unwrap_or_default());
                page.taken.push(terms);
            }
            Err(reason) => page.left_out.push(LeftOut { triple: triple.clone(), reason }),
        }
    }
    page
}

struct Converter<'a> {
    prefixes: &'a Prefixes,
    graph: &'a str,
    /// Blank nodes by their numbers.
    blanks: HashMap<String, usize>,
}

impl Converter<'_> {
    fn terms(&mut self, triple: &Triple) -> Result<[Term; 3], Reason> {
        match &triple.graph {
            Some(Resource::Iri(graph)) if graph != self.graph => return Err(Reason::Graph(format!("<{graph}>"))),
            Some(Resource::Blank(graph)) => return Err(Reason::Graph(format!("_:{graph}"))),
            _ => {}
        }
        let subject = self.resource(&triple.subject, "subject");
        let object = match &triple.object {
            Object::Resource(resource) => self.resource(resource, "object"),
            Object::Literal { text, language: Some(language), .. } => string(text, language),
            Object::Literal { text, language: None, datatype } => self.typed(text, datatype.as_deref()),
        };
        let property = self.prefixes.term(&triple.property).map_err(|error| Reason::Iri("property", error))?;
        Ok([subject?, property, object?])
    }

    fn resource(&mut self, resource: &Resource, place: &'static str) -> Result<Term, Reason> {
        let bad = |error| Reason::Iri(place, error);
        match resource {
            Resource::Iri(iri) => self.prefixes.term(iri).map_err(bad),
            Resource::Blank(name) => {
                let next = self.blanks.len() + 1;
                let number = *self.blanks.entry(name.clone()).or_insert(next);
                let text = format!("_:{number}@{}", self.prefixes.shortened(self.graph).map_err(bad)?);
                Prefixes::default().term(&text).map_err(bad)
            }
        }
    }

    /// A literal by its datatype; one of xsd:anyURI is the IRI itself.
    fn typed(&self, text: &str, datatype: Option<&str>) -> Result<Term, Reason> {
        let Some(datatype) = datatype.filter(|datatype| *datatype != LANG_STRING) else {
            return string(text, "");
        };
        match datatype.strip_prefix(XSD) {
            Some("string") => string(text, ""),
            Some("anyURI") => self.prefixes.term(text.trim()).map_err(|error| Reason::Iri("object", error)),
            Some("dateTime" | "dateTimeStamp") => date_time(text.trim()).map_err(Reason::Time),
            Some("decimal" | "double" | "float") => decimal(text.trim()),
            Some(name) if INTEGERS.contains(&name) => integer(text.trim()),
            _ => Err(Reason::Datatype(datatype.to_owned())),
        }
    }
}

fn string(text: &str, language: &str) -> Result<Term, Reason> {
    let tag = language.to_ascii_lowercase();
    Term::tagged(&tag, text).map_err(|error| match (error, text.chars().find(|c| !matches!(c, ' '..='~'))) {
        (BadTerm::Tag, _) if tag.len() > TAG_WIDTH => Reason::LongTag(tag.len() - TAG_WIDTH),
        (BadTerm::Tag, _) => Reason::Tag(tag),
        (_, Some(c)) => Reason::Character(c),
        (_, None) => Reason::LongText(text.len().saturating_sub(TEXT_WIDTH)),
    })
}

fn integer(text: &str) -> Result<Term, Reason> {
    let term = number(text).map_err(Reason::Number)?;
    if matches!(term.value(), Value::Integer(_)) {
        Ok(term)
    } else {
        Err(Reason::NoInteger)
    }
}

/// A decimal by its value, also where it is written `5`, `5.` or `.5`.
fn decimal(text: &str) -> Result<Term, Reason> {
    let (whole, rest) = text.split_once('.').unwrap_or((text, ""));
    let digits = rest.len() - rest.trim_start_matches(|c: char| c.is_ascii_digit()).len();
    let full = match (whole.ends_with(|c: char| c.is_ascii_digit()), digits > 0) {
        (true, false) => format!("{whole}{rest}"),
        (false, true) => format!("{whole}0.{rest}"),
        _ => text.to_owned(),
    };
    let term = number(&full).map_err(Reason::Number)?;
    match term.value() {
        Value::Integer(value) => Ok(Term::decimal(value * MILLION).unwrap_or(term)),
        _ => Ok(term),
    }
}
