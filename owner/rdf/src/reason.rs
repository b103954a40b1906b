//! Why a triple is no record.

use std::error::Error;
use std::fmt;
use terms::{IriError, NumberError, TimeError};
use willetcoffer::limits::{TAG_WIDTH, TEXT_WIDTH};

/// Why a triple is no record.
#[derive(Clone, PartialEq, Eq, Debug)]
pub enum Reason {
    /// The subject, property or object is an IRI that is not in a record.
    Iri(&'static str, IriError),
    /// The text is longer than the record's field, by so many bytes.
    LongText(usize),
    /// The text has a character that no record holds.
    Character(char),
    /// The language tag is longer than the record's field, by so many bytes.
    LongTag(usize),
    /// The language tag has other characters than letters and hyphens.
    Tag(String),
    /// The number.
    Number(NumberError),
    /// The number has a point or an exponent, and its datatype is one of integers.
    NoInteger,
    /// The dateTime.
    Time(TimeError),
    /// No term has this datatype.
    Datatype(String),
    /// The triple belongs to another graph.
    Graph(String),
}

impl fmt::Display for Reason {
    fn fmt(&self, f: &mut fmt::Formatter<'_>) -> fmt::Result {
        match self {
            Reason::Iri(place, error) => write!(f, "the {place}: {error}"),
            Reason::LongText(over) => write!(f, "the text is {over} bytes longer than the {TEXT_WIDTH} of a record"),
            Reason::Character(c) => write!(f, "the character {c:?} is in no text of a record"),
            Reason::LongTag(over) => {
                write!(f, "the language tag is {over} bytes longer than the {TAG_WIDTH} of a record")
            }
            Reason::Tag(tag) => write!(f, "the language tag {tag} has other characters than letters and hyphens"),
            Reason::Number(error) => error.fmt(f),
            Reason::NoInteger => write!(f, "an integer has neither point nor exponent"),
            Reason::Time(error) => error.fmt(f),
            Reason::Datatype(datatype) => write!(f, "no term has the datatype <{datatype}>"),
            Reason::Graph(graph) => write!(f, "it belongs to another graph, {graph}"),
        }
    }
}

impl Error for Reason {}
