//! Terms and their records.

use crate::kinds::{DATE_TIME, DECIMAL, INTEGER, STRING, URI};
use crate::limits::{
    DECIMAL_LIMIT, INTEGER_LIMIT, NUMBER_WIDTH, SECONDS_AFTER, SECONDS_BEFORE, SLOT_WIDTH, TAG_WIDTH, TEXT_WIDTH,
};
use std::error::Error;
use std::fmt;

/// A term: its record, which is always a good one, filled up with zeros as in a slot of the term table. Equal terms have
/// equal records, so the integer 3 and the decimal 3.0 are two terms.
///
/// ```
/// use willetcoffer::{limits::SLOT_WIDTH, BadTerm, Term, Value};
/// let mallard = Term::tagged("en", "Mallard")?;
/// assert_eq!(mallard.value(), Value::String { tag: "en", text: "Mallard" });
/// assert_eq!(mallard.record().len(), SLOT_WIDTH);
/// assert_eq!(Term::from_slot(mallard.slot()), Some(mallard));
/// assert_eq!(Term::uri("with a blank"), Err(BadTerm::Uri));
/// # Ok::<(), BadTerm>(())
/// ```
#[derive(Clone, Copy, PartialEq, Eq, Hash)]
pub struct Term {
    slot: [u8; SLOT_WIDTH],
}

/// What a term is.
#[derive(Clone, Copy, PartialEq, Eq, Hash, Debug)]
pub enum Value<'a> {
    /// A URI.
    Uri(&'a str),
    /// A string with its language tag, which may be empty.
    String {
        /// The language tag.
        tag: &'a str,
        /// The text.
        text: &'a str,
    },
    /// An integer.
    Integer(i64),
    /// A decimal, as a count of millionths.
    Decimal(i64),
    /// A dateTime, in seconds from 1970-01-01T00:00:00Z.
    DateTime(i64),
}

/// What no term has.
#[derive(Clone, Copy, PartialEq, Eq, Hash, Debug)]
pub enum BadTerm {
    /// A URI that is empty, too long, or has a byte outside 21 to 7E.
    Uri,
    /// A text that is too long or has a byte outside 20 to 7E.
    Text,
    /// A language tag that is too long or has other bytes than small letters and hyphens.
    Tag,
    /// An integer past its limit.
    Integer,
    /// A decimal past its limit.
    Decimal,
    /// A second outside the years 1 to 9999.
    DateTime,
}

impl fmt::Display for BadTerm {
    fn fmt(&self, f: &mut fmt::Formatter<'_>) -> fmt::Result {
        match self {
            BadTerm::Uri => write!(f, "a URI has 1 to {TEXT_WIDTH} bytes from 21 to 7E"),
            BadTerm::Text => write!(f, "a text has at most {TEXT_WIDTH} bytes, all from 20 to 7E"),
            BadTerm::Tag => write!(f, "a language tag has at most {TAG_WIDTH} small letters and hyphens"),
            BadTerm::Integer => write!(f, "an integer is at most {INTEGER_LIMIT} either way"),
            BadTerm::Decimal => write!(f, "a decimal is at most {DECIMAL_LIMIT} millionths either way"),
            BadTerm::DateTime => write!(f, "a dateTime lies in the years 1 to 9999"),
        }
    }
}

impl Error for BadTerm {}

/// Digits that a decimal has after its point, at most.
pub const PLACES: u32 = 6;
/// Millionths in one: a decimal counts in these.
pub const MILLION: i64 = 10_i64.pow(PLACES);

/// The bytes of a term's body that its kind fixes, for kinds 11 to 15.
pub fn body_width(kind: u8) -> Option<usize> {
    match kind {
        URI => Some(TEXT_WIDTH),
        STRING => Some(TAG_WIDTH + TEXT_WIDTH),
        INTEGER..=DATE_TIME => Some(NUMBER_WIDTH),
        _ => None,
    }
}

/// The text before the zeros, if only zeros follow it.
fn filled(bytes: &[u8]) -> Option<&str> {
    let end = bytes.iter().position(|b| *b == 0).unwrap_or(bytes.len());
    let (text, zeros) = bytes.split_at(end);
    if zeros.iter().any(|b| *b != 0) {
        return None;
    }
    std::str::from_utf8(text).ok()
}

/// Copies a text to the front of a field of zeros, if it fits.
fn fill(field: &mut [u8], text: &str) -> bool {
    let fits = text.len() <= field.len();
    if fits {
        field[..text.len()].copy_from_slice(text.as_bytes());
    }
    fits
}

fn is_uri(text: &str) -> bool {
    !text.is_empty() && text.bytes().all(|b| (0x21..=0x7e).contains(&b))
}

fn is_text(text: &str) -> bool {
    text.bytes().all(|b| (0x20..=0x7e).contains(&b))
}

fn is_tag(text: &str) -> bool {
    text.bytes().all(|b| b.is_ascii_lowercase() || b == b'-')
}

impl Term {
    const fn of_kind(kind: u8) -> Term {
        let mut slot = [0; SLOT_WIDTH];
        slot[0] = kind;
        Term { slot }
    }

    fn number(kind: u8, number: i64) -> Term {
        let mut term = Term::of_kind(kind);
        term.slot[1..1 + NUMBER_WIDTH].copy_from_slice(&number.to_le_bytes());
        term
    }

    /// A URI.
    pub fn uri(text: &str) -> Result<Term, BadTerm> {
        let mut term = Term::of_kind(URI);
        let fits = is_uri(text) && fill(&mut term.slot[1..1 + TEXT_WIDTH], text);
        fits.then_some(term).ok_or(BadTerm::Uri)
    }

    /// A string without a language tag.
    pub fn string(text: &str) -> Result<Term, BadTerm> {
        Term::tagged("", text)
    }

    /// A string with a language tag.
    pub fn tagged(tag: &str, text: &str) -> Result<Term, BadTerm> {
        let mut term = Term::of_kind(STRING);
        if !(is_tag(tag) && fill(&mut term.slot[1..1 + TAG_WIDTH], tag)) {
            return Err(BadTerm::Tag);
        }
        let fits = is_text(text) && fill(&mut term.slot[1 + TAG_WIDTH..], text);
        fits.then_some(term).ok_or(BadTerm::Text)
    }

    /// An integer.
    pub fn integer(number: i64) -> Result<Term, BadTerm> {
        let fits = (-INTEGER_LIMIT..=INTEGER_LIMIT).contains(&number);
        fits.then(|| Term::number(INTEGER, number)).ok_or(BadTerm::Integer)
    }

    /// A decimal, as a count of millionths.
    pub fn decimal(millionths: i64) -> Result<Term, BadTerm> {
        let fits = (-DECIMAL_LIMIT..=DECIMAL_LIMIT).contains(&millionths);
        fits.then(|| Term::number(DECIMAL, millionths)).ok_or(BadTerm::Decimal)
    }

    /// A dateTime, in seconds from 1970-01-01T00:00:00Z.
    pub fn date_time(seconds: i64) -> Result<Term, BadTerm> {
        let fits = (-SECONDS_BEFORE..=SECONDS_AFTER).contains(&seconds);
        fits.then(|| Term::number(DATE_TIME, seconds)).ok_or(BadTerm::DateTime)
    }

    /// The term of a slot of the term table; none where the slot holds no good record, or more than one.
    pub fn from_slot(slot: &[u8]) -> Option<Term> {
        let slot: [u8; SLOT_WIDTH] = slot.try_into().ok()?;
        let (body, rest) = slot[1..].split_at(body_width(slot[0])?);
        let number = || body.try_into().map(i64::from_le_bytes).ok();
        let again = match slot[0] {
            URI => Term::uri(filled(body)?),
            STRING => Term::tagged(filled(&body[..TAG_WIDTH])?, filled(&body[TAG_WIDTH..])?),
            INTEGER => Term::integer(number()?),
            DECIMAL => Term::decimal(number()?),
            _ => Term::date_time(number()?),
        };
        again.ok().filter(|_| rest.iter().all(|b| *b == 0))
    }

    /// Its kind, 11 to 15.
    pub fn kind(&self) -> u8 {
        self.slot[0]
    }

    /// Its body, as long as the kind fixes.
    pub fn body(&self) -> &[u8] {
        &self.slot[1..1 + body_width(self.kind()).unwrap_or(0)]
    }

    /// Its record: kind and body.
    pub fn record(&self) -> &[u8] {
        &self.slot[..1 + self.body().len()]
    }

    /// Its slot: the record, filled up with zeros.
    pub fn slot(&self) -> &[u8; SLOT_WIDTH] {
        &self.slot
    }

    /// What it is.
    pub fn value(&self) -> Value<'_> {
        let body = self.body();
        let number = || body.try_into().map_or(0, i64::from_le_bytes);
        let text = |bytes| filled(bytes).unwrap_or_default();
        match self.kind() {
            URI => Value::Uri(text(body)),
            STRING => Value::String { tag: text(&body[..TAG_WIDTH]), text: text(&body[TAG_WIDTH..]) },
            INTEGER => Value::Integer(number()),
            DECIMAL => Value::Decimal(number()),
            _ => Value::DateTime(number()),
        }
    }

    /// The bytes of a URI's text, filled with zeros; none for another term.
    pub(crate) fn uri_body(&self) -> Option<&[u8]> {
        (self.kind() == URI).then(|| self.body())
    }
}

impl fmt::Debug for Term {
    fn fmt(&self, f: &mut fmt::Formatter<'_>) -> fmt::Result {
        self.value().fmt(f)
    }
}

/// A URI or a string by its text, an integer by its digits, a decimal with no needless zero (`126.4`, `65`), a dateTime as
/// `second` and its count.
impl fmt::Display for Term {
    fn fmt(&self, f: &mut fmt::Formatter<'_>) -> fmt::Result {
        match self.value() {
            Value::Uri(text) | Value::String { text, .. } => f.write_str(text),
            Value::Integer(number) => number.fmt(f),
            Value::Decimal(millionths) => {
                let sign = if millionths < 0 { "-" } else { "" };
                let (whole, rest) = (millionths.abs() / MILLION, millionths.abs() % MILLION);
                let digits = format!("{sign}{whole}.{rest:0width$}", width = PLACES as usize);
                f.write_str(digits.trim_end_matches('0').trim_end_matches('.'))
            }
            Value::DateTime(seconds) => write!(f, "second {seconds}"),
        }
    }
}
