//! From page records to triples, and triples as text: what a station publishes, for others to read.

use crate::format::Format;
use crate::page::XSD;
use crate::triple::{Object, Resource, Triple};
use std::error::Error;
use std::fmt;
use terms::{plain, Prefixes};
use willetcoffer::page::{records, terms};
use willetcoffer::{Term, Value};

/// A published page as triples, and what is none.
#[derive(Clone, PartialEq, Eq, Debug, Default)]
pub struct Published {
    /// The triples of the records, in their order.
    pub triples: Vec<Triple>,
    /// The records that no text of Linked Data can hold.
    pub left_out: Vec<NotWritten>,
}

/// A record that no text of Linked Data can hold.
#[derive(Clone, PartialEq, Eq, Debug)]
pub struct NotWritten {
    /// Subject, property and object as they stand in the record.
    pub terms: [String; 3],
    /// Why.
    pub why: Unwritable,
}

/// Why a record is in no text of Linked Data.
#[derive(Clone, PartialEq, Eq, Debug)]
pub enum Unwritable {
    /// The subject or property is no absolute IRI.
    Iri(&'static str),
    /// The language tag is none that the text may have.
    Tag(String),
    /// The bytes are no record.
    Record,
}

impl fmt::Display for Unwritable {
    fn fmt(&self, f: &mut fmt::Formatter<'_>) -> fmt::Result {
        match self {
            Unwritable::Iri(place) => write!(f, "the {place} is no absolute IRI"),
            Unwritable::Tag(tag) => write!(f, "no text has the language tag {tag}"),
            Unwritable::Record => write!(f, "no record"),
        }
    }
}

impl Error for Unwritable {}

impl fmt::Display for NotWritten {
    fn fmt(&self, f: &mut fmt::Formatter<'_>) -> fmt::Result {
        write!(f, "{}\n    {}", self.terms.join(" "), self.why)
    }
}

/// The triples of a page, which [`page`](crate::page()) turns into the same records again, under the same prefixes and for the same graph; but
/// blank nodes are numbered anew there, by the order in which they are met.
pub fn published(page: &[u8], prefixes: &Prefixes) -> Published {
    let mut published = Published::default();
    for record in records(page) {
        let Some(record_terms) = terms(record) else {
            let terms = [String::new(), String::new(), String::new()];
            published.left_out.push(NotWritten { terms, why: Unwritable::Record });
            continue;
        };
        match triple(&record_terms, prefixes) {
            Ok(triple) => published.triples.push(triple),
            Err(why) => published.left_out.push(NotWritten { terms: record_terms.map(|term| plain(&term)), why }),
        }
    }
    published
}

fn triple([subject, property, object]: &[Term; 3], prefixes: &Prefixes) -> Result<Triple, Unwritable> {
    let subject = resource(&plain(subject), prefixes).ok_or(Unwritable::Iri("subject"))?;
    let property = match resource(&plain(property), prefixes) {
        Some(Resource::Iri(iri)) => iri,
        _ => return Err(Unwritable::Iri("property")),
    };
    let typed = |datatype: &str| Object::Literal {
        text: plain(object),
        language: None,
        datatype: Some(format!("{XSD}{datatype}")),
    };
    let object = match object.value() {
        Value::Uri(text) => match resource(text, prefixes) {
            Some(resource) => Object::Resource(resource),
            // What is no IRI is one by its datatype alone.
            None => {
                Object::Literal { text: prefixes.full(text), language: None, datatype: Some(format!("{XSD}anyURI")) }
            }
        },
        Value::String { tag, text } => {
            if !tag.is_empty() && !is_language(tag) {
                return Err(Unwritable::Tag(tag.to_owned()));
            }
            let language = Some(tag.to_owned()).filter(|tag| !tag.is_empty());
            Object::Literal { text: text.to_owned(), language, datatype: None }
        }
        Value::Integer(_) => typed("integer"),
        Value::Decimal(_) => typed("decimal"),
        Value::DateTime(_) => typed("dateTime"),
    };
    Ok(Triple { subject, property, object, graph: None })
}

/// A record's text as an IRI or a blank node, if it is one: `_:1@club:yard` is the blank node 1 of its page.
fn resource(text: &str, prefixes: &Prefixes) -> Option<Resource> {
    if let Some(rest) = text.strip_prefix("_:") {
        let (number, _) = rest.split_once('@')?;
        let is_number = !number.is_empty() && number.bytes().all(|byte| byte.is_ascii_digit());
        return is_number.then(|| Resource::Blank(format!("b{number}")));
    }
    Some(prefixes.full(text)).filter(|iri| is_absolute(iri)).map(Resource::Iri)
}

/// Whether a text is an IRI with its scheme, of characters that stand between angular brackets.
fn is_absolute(text: &str) -> bool {
    let is_scheme = |scheme: &str| {
        scheme.starts_with(|c: char| c.is_ascii_alphabetic())
            && scheme.bytes().all(|byte| byte.is_ascii_alphanumeric() || b"+-.".contains(&byte))
    };
    text.split_once(':').is_some_and(|(scheme, _)| is_scheme(scheme))
        && text.bytes().all(|byte| byte.is_ascii_graphic() && !b"<>\"{}|^`\\".contains(&byte))
}

/// Whether a text may have the language tag: letters, then letters after single hyphens.
fn is_language(tag: &str) -> bool {
    tag.split('-').all(|part| !part.is_empty() && part.bytes().all(|byte| byte.is_ascii_alphabetic()))
}

/// Triples as text, a line each in their order, Turtle under these prefixes; none for a format that is only read.
pub fn written(triples: &[Triple], format: Format, prefixes: &Prefixes) -> Option<String> {
    match format {
        Format::NTriples => Some(triples.iter().map(|triple| format!("{triple} .\n")).collect()),
        Format::Turtle => {
            let heads = prefixes.iter().map(|(name, iri)| format!("@prefix {name}: <{iri}> .\n"));
            let line = |triple: &Triple| {
                let property = short(&Resource::Iri(triple.property.clone()), prefixes);
                format!("{} {property} {} .\n", short(&triple.subject, prefixes), object(&triple.object, prefixes))
            };
            let lines: String = triples.iter().map(line).collect();
            let heads: String = heads.collect();
            let between = if heads.is_empty() || lines.is_empty() { "" } else { "\n" };
            Some([&heads, between, &lines].concat())
        }
        _ => None,
    }
}

/// An IRI as Turtle has it, by its prefix where what is left may stand after one.
fn short(resource: &Resource, prefixes: &Prefixes) -> String {
    let Resource::Iri(iri) = resource else { return resource.to_string() };
    let text = prefixes.shortened(iri).ok();
    match text.as_deref().and_then(|text| prefixes.split(text)) {
        Some((name, local)) if is_local(local) => format!("{name}:{local}"),
        _ => resource.to_string(),
    }
}

/// Whether a text may stand after a prefix in Turtle, with nothing escaped.
fn is_local(text: &str) -> bool {
    let first = text.bytes().next().is_none_or(|byte| byte.is_ascii_alphanumeric() || byte == b'_');
    first && text.bytes().all(|byte| byte.is_ascii_alphanumeric() || b"_-".contains(&byte))
}

/// An object as Turtle has it: integers and decimals without quotes.
fn object(object: &Object, prefixes: &Prefixes) -> String {
    match object {
        Object::Resource(resource) => short(resource, prefixes),
        Object::Literal { text, language: None, datatype: Some(datatype) } => match datatype.strip_prefix(XSD) {
            Some("integer" | "decimal") => text.clone(),
            _ => object.to_string(),
        },
        _ => object.to_string(),
    }
}
