//! The ten types and their order.

/// The five datatypes, with document 01's codes.
#[derive(Clone, Copy, PartialEq, Eq, Hash, Debug)]
pub enum Datatype {
    /// `xsd:anyURI`
    AnyUri = 1,
    /// `xsd:string`
    String = 2,
    /// `xsd:decimal`
    Decimal = 3,
    /// `xsd:dateTime`
    DateTime = 4,
    /// `xsd:integer`
    Integer = 5,
}

impl Datatype {
    /// All five, by code.
    pub const ALL: [Datatype; 5] =
        [Datatype::AnyUri, Datatype::String, Datatype::Decimal, Datatype::DateTime, Datatype::Integer];

    /// The datatype of this code.
    pub fn from_code(code: u8) -> Option<Datatype> {
        Datatype::ALL.into_iter().find(|d| *d as u8 == code)
    }

    /// Whether `self ≤ other`: equal, or integer below decimal.
    pub fn le(self, other: Datatype) -> bool {
        self == other || (self == Datatype::Integer && other == Datatype::Decimal)
    }

    /// The name as the type printer writes it.
    pub fn name(self) -> &'static str {
        match self {
            Datatype::AnyUri => "xsd:anyURI",
            Datatype::String => "xsd:string",
            Datatype::Decimal => "xsd:decimal",
            Datatype::DateTime => "xsd:dateTime",
            Datatype::Integer => "xsd:integer",
        }
    }
}

/// A type: a datatype, or the type of properties that range over a datatype.
#[derive(Clone, Copy, PartialEq, Eq, Hash, Debug)]
pub enum Type {
    /// The type of a term.
    Data(Datatype),
    /// `range(d)`: the type of properties whose objects have type d.
    Range(Datatype),
}

impl Type {
    /// All ten, by code.
    pub fn all() -> impl Iterator<Item = Type> {
        let data = Datatype::ALL.into_iter().map(Type::Data);
        data.chain(Datatype::ALL.into_iter().map(Type::Range))
    }

    /// The code of document 01: 1 to 5 a datatype, 9 to 13 a range.
    pub fn code(self) -> u8 {
        match self {
            Type::Data(d) => d as u8,
            Type::Range(d) => d as u8 + 8,
        }
    }

    /// The type of this code.
    pub fn from_code(code: u8) -> Option<Type> {
        Type::all().find(|t| t.code() == code)
    }

    /// Whether `self ≤ other`. Ranges go the other way round than their datatypes, and all of them stand below anyURI.
    pub fn le(self, other: Type) -> bool {
        match (self, other) {
            (Type::Data(d), Type::Data(e)) => d.le(e),
            (Type::Range(e), Type::Range(d)) => d.le(e),
            (Type::Range(_), Type::Data(d)) => d == Datatype::AnyUri,
            (Type::Data(_), Type::Range(_)) => false,
        }
    }

    /// The name as the type printer writes it.
    pub fn name(self) -> String {
        match self {
            Type::Data(d) => d.name().to_string(),
            Type::Range(d) => format!("range({})", d.name()),
        }
    }
}

#[cfg(test)]
mod tests {
    use super::*;

    #[test]
    fn the_order_is_that_of_the_paper() {
        let data = |d| Type::Data(d);
        let range = |d| Type::Range(d);
        use Datatype::*;
        assert!(data(Integer).le(data(Decimal)) && !data(Decimal).le(data(Integer)));
        assert!(range(Decimal).le(range(Integer)) && !range(Integer).le(range(Decimal)));
        for d in Datatype::ALL {
            assert!(range(d).le(data(AnyUri)) && !data(AnyUri).le(range(d)));
        }
        for a in Type::all() {
            assert!(a.le(a));
            assert_eq!(Type::from_code(a.code()), Some(a));
            for b in Type::all() {
                assert!(a == b || !(a.le(b) && b.le(a)));
                for c in Type::all() {
                    assert!(!(a.le(b) && b.le(c)) || a.le(c));
                }
            }
        }
    }

    #[test]
    fn codes_without_a_type() {
        for code in [0, 6, 7, 8, 14, 255] {
            assert_eq!(Type::from_code(code), None);
        }
    }
}
