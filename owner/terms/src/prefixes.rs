//! The table of prefixes: one for a card and its pages, so that a schema's `p:speed` and a page's full IRI are one property.

use std::error::Error;
use std::fmt;
use willetcoffer::limits::TEXT_WIDTH;
use willetcoffer::Term;

/// Prefix names with the IRIs that they stand for.
///
/// A record holds `p:speed` where `p:` stands for the beginning of an IRI, the longest that fits, and else the IRI in full.
///
/// ```
/// use terms::Prefixes;
/// let mut prefixes = Prefixes::default();
/// prefixes.add("p", "http://p.example/")?;
/// let speed = prefixes.term("http://p.example/speed")?;
/// assert_eq!(speed.to_string(), "p:speed");
/// assert_eq!(prefixes.full("p:speed"), "http://p.example/speed");
/// # Ok::<(), Box<dyn std::error::Error>>(())
/// ```
#[derive(Clone, PartialEq, Eq, Debug, Default)]
pub struct Prefixes {
    rows: Vec<(String, String)>,
}

/// Why a prefix is not taken into the table.
#[derive(Clone, Copy, PartialEq, Eq, Debug)]
pub enum BadPrefix {
    /// The name is there already, with another IRI.
    Twice,
    /// Another name stands for the same IRI.
    Same,
}

impl fmt::Display for BadPrefix {
    fn fmt(&self, f: &mut fmt::Formatter<'_>) -> fmt::Result {
        f.write_str(match self {
            BadPrefix::Twice => "this prefix name stands for another IRI already",
            BadPrefix::Same => "another prefix stands for this IRI already",
        })
    }
}

impl Error for BadPrefix {}

/// Why an IRI is not in a record.
#[derive(Clone, PartialEq, Eq, Debug)]
pub enum IriError {
    /// There is nothing of it.
    Empty,
    /// What is left after shortening is longer than the record's field.
    Long {
        /// What would have to stand in the record.
        text: String,
    },
    /// It has a character that no record holds.
    Character(char),
    /// It begins like a prefix name, and so would be taken for another IRI.
    Ambiguous {
        /// The prefix name.
        prefix: String,
    },
}

impl fmt::Display for IriError {
    fn fmt(&self, f: &mut fmt::Formatter<'_>) -> fmt::Result {
        match self {
            IriError::Empty => write!(f, "the IRI is empty"),
            IriError::Long { text } => {
                let length = text.len();
                write!(f, "{length} bytes, {} more than the {TEXT_WIDTH} of a record: {text}", length - TEXT_WIDTH)
            }
            IriError::Character(c) => write!(f, "the character {c:?} is in no IRI of a record"),
            IriError::Ambiguous { prefix } => {
                write!(f, "it begins like the prefix name {prefix}:, and would be taken for another IRI")
            }
        }
    }
}

impl Error for IriError {}

/// Whether this is the name of a prefix: a letter, then letters, digits, hyphens and underscores.
pub fn is_prefix_name(text: &str) -> bool {
    text.starts_with(|c: char| c.is_ascii_alphabetic())
        && text.bytes().all(|b| b.is_ascii_alphanumeric() || b == b'-' || b == b'_')
}

impl Prefixes {
    /// Adds a prefix; the same one twice is no error.
    pub fn add(&mut self, name: &str, iri: &str) -> Result<(), BadPrefix> {
        let row = (name.to_owned(), iri.to_owned());
        if self.rows.contains(&row) {
            return Ok(());
        }
        if self.iri(name).is_some() {
            return Err(BadPrefix::Twice);
        }
        if self.rows.iter().any(|(_, other)| other == iri) {
            return Err(BadPrefix::Same);
        }
        self.rows.push(row);
        Ok(())
    }

    /// The names with their IRIs, as they were added.
    pub fn iter(&self) -> impl Iterator<Item = (&str, &str)> {
        self.rows.iter().map(|(name, iri)| (name.as_str(), iri.as_str()))
    }

    /// The IRI that a name stands for.
    pub fn iri(&self, name: &str) -> Option<&str> {
        self.iter().find(|row| row.0 == name).map(|row| row.1)
    }

    /// A record's text as prefix name and rest, if it begins with a name of the table.
    pub fn split<'a>(&self, text: &'a str) -> Option<(&'a str, &'a str)> {
        text.split_once(':').filter(|(name, _)| self.iri(name).is_some())
    }

    /// The IRI that a record's text stands for.
    pub fn full(&self, text: &str) -> String {
        match self.split(text) {
            Some((name, rest)) => [self.iri(name).unwrap_or_default(), rest].concat(),
            None => text.to_owned(),
        }
    }

    /// What a record holds for an IRI.
    pub fn shortened(&self, iri: &str) -> Result<String, IriError> {
        let fitting = self.iter().filter(|row| iri.starts_with(row.1)).max_by_key(|row| row.1.len());
        match (fitting, self.split(iri)) {
            (Some((name, start)), _) => Ok(format!("{name}:{}", &iri[start.len()..])),
            (None, Some((name, _))) => Err(IriError::Ambiguous { prefix: name.to_owned() }),
            (None, None) => Ok(iri.to_owned()),
        }
    }

    /// The term of an IRI.
    pub fn term(&self, iri: &str) -> Result<Term, IriError> {
        let text = self.shortened(iri)?;
        Term::uri(&text).map_err(|_| match text.chars().find(|c| !c.is_ascii_graphic()) {
            _ if text.is_empty() => IriError::Empty,
            Some(c) => IriError::Character(c),
            None => IriError::Long { text },
        })
    }
}

#[cfg(test)]
mod tests {
    use super::*;

    fn table() -> Prefixes {
        let mut prefixes = Prefixes::default();
        prefixes.add("club", "http://club.example/").expect("a first prefix");
        prefixes.add("loco", "http://club.example/loco/").expect("a longer one");
        prefixes
    }

    #[test]
    fn the_longest_prefix_shortens() {
        let prefixes = table();
        for (iri, text) in [
            ("http://club.example/yard", "club:yard"),
            ("http://club.example/loco/1", "loco:1"),
            ("http://club.example/loco/", "loco:"),
            ("http://other.example/", "http://other.example/"),
        ] {
            assert_eq!(prefixes.shortened(iri).as_deref(), Ok(text));
            assert_eq!(prefixes.full(text), iri);
        }
    }

    #[test]
    fn no_iri_is_taken_for_another() {
        let prefixes = table();
        assert_eq!(prefixes.term("loco:1"), Err(IriError::Ambiguous { prefix: "loco".to_owned() }));
        assert_eq!(table().add("club", "http://else.example/"), Err(BadPrefix::Twice));
        assert_eq!(table().add("yard", "http://club.example/"), Err(BadPrefix::Same));
        assert_eq!(table().add("club", "http://club.example/"), Ok(()));
    }

    #[test]
    fn what_does_not_fit_says_by_how_much() {
        let long = "x".repeat(TEXT_WIDTH);
        let error = table().term(&format!("http://club.example/{long}")).expect_err("club: and as many bytes as fit");
        let (over, length) = ("club:".len(), "club:".len() + TEXT_WIDTH);
        let expected = format!("{length} bytes, {over} more than the {TEXT_WIDTH} of a record: club:{long}");
        assert_eq!(error.to_string(), expected);
        assert!(table().term(&format!("http://club.example/{}", &long[over..])).is_ok(), "as many as fit");
        assert_eq!(table().term("http://club.example/é"), Err(IriError::Character('é')));
        assert_eq!(table().term(""), Err(IriError::Empty));
    }
}
