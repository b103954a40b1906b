//! Terms and their records.

use crate::limits::{DECIMAL, FIRST_SECOND, INTEGER, LAST_SECOND, SLOT, TAG, TEXT};
use crate::types::{Datatype, Type};

/// A URI's text, filled with zeros.
pub type Uri = [u8; TEXT];

/// A term. Equal terms have equal records.
#[derive(Clone, Copy, PartialEq, Eq, Hash, Debug)]
pub enum Term {
    /// A URI.
    Uri(Uri),
    /// A string: its language tag, which may be empty, and its text, both filled with zeros.
    Str([u8; TAG], [u8; TEXT]),
    /// An integer.
    Int(i64),
    /// A decimal, as a count of millionths.
    Dec(i64),
    /// A dateTime, in seconds from 1970-01-01T00:00:00Z.
    Time(i64),
}

/// The length of the text before the zeros at its end, if the text has good bytes only and nothing follows the zeros.
pub fn filled(bytes: &[u8], good: impl Fn(u8) -> bool) -> Option<usize> {
    let (text, zeros) = bytes.split_at(trim(bytes).len());
    (text.iter().all(|b| good(*b)) && all_zero(zeros)).then_some(text.len())
}

/// Whether all bytes are zero.
pub fn all_zero(bytes: &[u8]) -> bool {
    bytes.iter().fold(0, |bits, b| bits | b) == 0
}

/// The bytes before the first zero.
pub fn trim(bytes: &[u8]) -> &[u8] {
    &bytes[..bytes.iter().position(|b| *b == 0).unwrap_or(bytes.len())]
}

/// The URI of a body of [`TEXT`] bytes, if it is one.
pub fn uri_body(body: &[u8]) -> Option<Uri> {
    let length = filled(body, |b| (0x21..=0x7e).contains(&b))?;
    (length > 0).then(|| body.try_into().ok()).flatten()
}

/// Whether a second count is a dateTime.
pub fn is_second(seconds: i64) -> bool {
    (FIRST_SECOND..=LAST_SECOND).contains(&seconds)
}

/// A byte of a language tag.
pub fn tag_byte(byte: u8) -> bool {
    byte.is_ascii_lowercase() || byte == b'-'
}

impl Term {
    /// The length of the body that the kind fixes, for kinds 11 to 15.
    pub fn body_length(kind: u8) -> Option<usize> {
        match kind {
            0x11 => Some(TEXT),
            0x12 => Some(TAG + TEXT),
            0x13..=0x15 => Some(8),
            _ => None,
        }
    }

    /// The term of a kind and a body of that kind's length.
    pub fn from_body(kind: u8, body: &[u8]) -> Option<Term> {
        let number = || Some(i64::from_le_bytes(body.try_into().ok()?));
        match kind {
            0x11 => uri_body(body).map(Term::Uri),
            0x12 => {
                let (tag, text) = body.split_at(TAG);
                filled(tag, tag_byte)?;
                filled(text, |b| (0x20..=0x7e).contains(&b))?;
                Some(Term::Str(tag.try_into().ok()?, text.try_into().ok()?))
            }
            0x13 => number().filter(|n| (-INTEGER..=INTEGER).contains(n)).map(Term::Int),
            0x14 => number().filter(|n| (-DECIMAL..=DECIMAL).contains(n)).map(Term::Dec),
            0x15 => number().filter(|n| is_second(*n)).map(Term::Time),
            _ => None,
        }
    }

    /// The term whose record stands first, and the bytes after it.
    pub fn read(bytes: &[u8]) -> Option<(Term, &[u8])> {
        let (kind, rest) = bytes.split_first()?;
        let length = Term::body_length(*kind)?;
        let body = rest.get(..length)?;
        Some((Term::from_body(*kind, body)?, &rest[length..]))
    }

    /// The term of a slot: a record and zeros.
    pub fn from_slot(slot: &[u8]) -> Option<Term> {
        let (term, rest) = Term::read(slot)?;
        all_zero(rest).then_some(term)
    }

    /// The kind byte of its record.
    pub fn kind(&self) -> u8 {
        match self {
            Term::Uri(_) => 0x11,
            Term::Str(..) => 0x12,
            Term::Int(_) => 0x13,
            Term::Dec(_) => 0x14,
            Term::Time(_) => 0x15,
        }
    }

    /// The slot: its record and zeros.
    pub fn slot(&self) -> [u8; SLOT] {
        let mut slot = [0; SLOT];
        slot[0] = self.kind();
        match self {
            Term::Uri(text) => slot[1..=TEXT].copy_from_slice(text),
            Term::Str(tag, text) => {
                slot[1..=TAG].copy_from_slice(tag);
                slot[1 + TAG..].copy_from_slice(text);
            }
            Term::Int(n) | Term::Dec(n) | Term::Time(n) => slot[1..9].copy_from_slice(&n.to_le_bytes()),
        }
        slot
    }

    /// Its record.
    pub fn record(&self) -> Vec<u8> {
        let length = Term::body_length(self.kind()).unwrap_or(0);
        self.slot()[..=length].to_vec()
    }

    /// Whether it has the type, given its schema datatype if it is a schema URI. A URI has anyURI and every type above
    /// the range of its schema datatype; an integer is a decimal too; the rest have their own type.
    pub fn has_type(&self, range: Option<Datatype>, wanted: Type) -> bool {
        match self {
            Term::Uri(_) => wanted == Type::Data(Datatype::AnyUri) || range.is_some_and(|d| Type::Range(d).le(wanted)),
            Term::Str(..) => wanted == Type::Data(Datatype::String),
            Term::Int(_) => Type::Data(Datatype::Integer).le(wanted),
            Term::Dec(_) => wanted == Type::Data(Datatype::Decimal),
            Term::Time(_) => wanted == Type::Data(Datatype::DateTime),
        }
    }

    /// Whether it has the datatype; no schema is needed for this.
    pub fn has_datatype(&self, wanted: Datatype) -> bool {
        self.has_type(None, Type::Data(wanted))
    }
}

/// Text filled with zeros to a fixed width; longer text is cut.
pub fn fill<const N: usize>(text: &[u8]) -> [u8; N] {
    let mut bytes = [0; N];
    let length = text.len().min(N);
    bytes[..length].copy_from_slice(&text[..length]);
    bytes
}
