//! The ten types of variables, by their codes.

use std::fmt;

/// A datatype.
#[derive(Clone, Copy, PartialEq, Eq, Hash, Debug)]
pub enum Datatype {
    /// `xsd:anyURI`, code 1.
    AnyUri = 1,
    /// `xsd:string`, code 2.
    String = 2,
    /// `xsd:decimal`, code 3.
    Decimal = 3,
    /// `xsd:dateTime`, code 4.
    DateTime = 4,
    /// `xsd:integer`, code 5.
    Integer = 5,
}

impl Datatype {
    /// All five, by code.
    pub const ALL: [Datatype; 5] =
        [Datatype::AnyUri, Datatype::String, Datatype::Decimal, Datatype::DateTime, Datatype::Integer];

    /// Its code.
    pub const fn code(self) -> u8 {
        self as u8
    }

    /// The datatype of this code.
    pub fn from_code(code: u8) -> Option<Datatype> {
        Datatype::ALL.into_iter().find(|datatype| datatype.code() == code)
    }
}

impl fmt::Display for Datatype {
    fn fmt(&self, f: &mut fmt::Formatter<'_>) -> fmt::Result {
        f.write_str(match self {
            Datatype::AnyUri => "xsd:anyURI",
            Datatype::String => "xsd:string",
            Datatype::Decimal => "xsd:decimal",
            Datatype::DateTime => "xsd:dateTime",
            Datatype::Integer => "xsd:integer",
        })
    }
}

/// A type: a datatype, or the type of properties whose objects have a datatype.
///
/// ```
/// use willetcoffer::{Datatype, Type};
/// assert_eq!(Type::from_code(13), Some(Type::Range(Datatype::Integer)));
/// assert_eq!(Type::Range(Datatype::Integer).to_string(), "range(xsd:integer)");
/// ```
#[derive(Clone, Copy, PartialEq, Eq, Hash, Debug)]
pub enum Type {
    /// The type of a term.
    Data(Datatype),
    /// `range(d)`, code 8 more than d's.
    Range(Datatype),
}

impl Type {
    /// All ten, by code.
    pub fn all() -> impl Iterator<Item = Type> {
        Datatype::ALL.into_iter().map(Type::Data).chain(Datatype::ALL.into_iter().map(Type::Range))
    }

    /// Its code: 1 to 5, or 9 to 13.
    pub const fn code(self) -> u8 {
        match self {
            Type::Data(d) => d.code(),
            Type::Range(d) => 8 + d.code(),
        }
    }

    /// The type of this code.
    pub fn from_code(code: u8) -> Option<Type> {
        Type::all().find(|t| t.code() == code)
    }
}

impl fmt::Display for Type {
    fn fmt(&self, f: &mut fmt::Formatter<'_>) -> fmt::Result {
        match self {
            Type::Data(d) => d.fmt(f),
            Type::Range(d) => write!(f, "range({d})"),
        }
    }
}
