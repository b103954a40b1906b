//! Triples as libraptor2 reads them.

use std::fmt;

/// An IRI or a blank node.
#[derive(Clone, PartialEq, Eq, Hash, Debug)]
pub enum Resource {
    /// An IRI in full.
    Iri(String),
    /// A blank node, by the name that the reader gave it.
    Blank(String),
}

/// The object of a triple.
#[derive(Clone, PartialEq, Eq, Debug)]
pub enum Object {
    /// An IRI or a blank node.
    Resource(Resource),
    /// A literal, as it is written.
    Literal {
        /// Its lexical form.
        text: String,
        /// Its language tag.
        language: Option<String>,
        /// The IRI of its datatype.
        datatype: Option<String>,
    },
}

/// A triple, with its graph where the text names one.
#[derive(Clone, PartialEq, Eq, Debug)]
pub struct Triple {
    /// The subject.
    pub subject: Resource,
    /// The property's IRI.
    pub property: String,
    /// The object.
    pub object: Object,
    /// The graph that the text names.
    pub graph: Option<Resource>,
}

impl fmt::Display for Resource {
    fn fmt(&self, f: &mut fmt::Formatter<'_>) -> fmt::Result {
        match self {
            Resource::Iri(iri) => write!(f, "<{iri}>"),
            Resource::Blank(name) => write!(f, "_:{name}"),
        }
    }
}

fn escaped(text: &str) -> String {
    let mut out = String::new();
    for c in text.chars() {
        match c {
            '"' => out.push_str("\\\""),
            '\\' => out.push_str("\\\\"),
            '\n' => out.push_str("\\n"),
            '\r' => out.push_str("\\r"),
            '\t' => out.push_str("\\t"),
            c => out.push(c),
        }
    }
    out
}

/// As N-Triples has it, without the point.
impl fmt::Display for Object {
    fn fmt(&self, f: &mut fmt::Formatter<'_>) -> fmt::Result {
        match self {
            Object::Resource(resource) => resource.fmt(f),
            Object::Literal { text, language, datatype } => {
                write!(f, "\"{}\"", escaped(text))?;
                match (language, datatype) {
                    (Some(language), _) => write!(f, "@{language}"),
                    (None, Some(datatype)) => write!(f, "^^<{datatype}>"),
                    (None, None) => Ok(()),
                }
            }
        }
    }
}

/// As N-Triples has it, without the point.
impl fmt::Display for Triple {
    fn fmt(&self, f: &mut fmt::Formatter<'_>) -> fmt::Result {
        write!(f, "{} <{}> {}", self.subject, self.property, self.object)
    }
}
