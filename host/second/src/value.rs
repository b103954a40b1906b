//! Values of expressions, with "no value" in their kinds.

use crate::calendar::date_time;
use crate::edge::{self, Look};
use crate::limits::{DECIMAL, INTEGER, MILLION, TAG, TEXT};
use crate::rank::{Lent, Str};
use crate::term::{fill, Term, Uri};

/// A value. `None` inside is the "no value" of that kind.
#[derive(Clone, Copy, PartialEq, Eq, Debug)]
pub enum Value {
    /// A URI.
    Uri(Uri),
    /// A string's tag and text.
    Str(Option<Str>),
    /// An integer.
    Int(Option<i64>),
    /// A decimal in millionths.
    Dec(Option<i64>),
    /// A dateTime.
    Time(i64),
}

impl From<&Term> for Value {
    fn from(term: &Term) -> Value {
        match term {
            Term::Uri(text) => Value::Uri(*text),
            Term::Str(tag, text) => Value::Str(Some((*tag, *text))),
            Term::Int(n) => Value::Int(Some(*n)),
            Term::Dec(n) => Value::Dec(Some(*n)),
            Term::Time(n) => Value::Time(*n),
        }
    }
}

fn integer(n: i64) -> Option<i64> {
    (-INTEGER..=INTEGER).contains(&n).then_some(n)
}

fn decimal(n: i64) -> Option<i64> {
    (-DECIMAL..=DECIMAL).contains(&n).then_some(n)
}

/// A decimal with at least one digit on both sides of the point and no needless zero.
fn decimal_text(n: i64) -> String {
    let sign = if n < 0 { "-" } else { "" };
    let (whole, part) = (n.abs() / MILLION, n.abs() % MILLION);
    let part = format!("{part:06}");
    let part = part.trim_end_matches('0');
    format!("{sign}{whole}.{}", if part.is_empty() { "0" } else { part })
}

impl Value {
    /// A number's amount in millionths; the outer option says whether it is a number at all.
    fn amount(&self) -> Option<Option<i64>> {
        match self {
            Value::Int(n) => Some(n.map(|n| n * MILLION)),
            Value::Dec(n) => Some(*n),
            _ => None,
        }
    }

    /// Plus or minus; none if a side is no number. Integer with integer gives an integer, else a decimal.
    pub fn arithmetic(&self, other: &Value, operation: fn(i64, i64) -> i64) -> Option<Value> {
        match (self, other) {
            (Value::Int(a), Value::Int(b)) => Some(Value::Int(a.zip(*b).and_then(|(a, b)| integer(operation(a, b))))),
            _ => {
                let (a, b) = (self.amount()?, other.amount()?);
                Some(Value::Dec(a.zip(b).and_then(|(a, b)| decimal(operation(a, b)))))
            }
        }
    }

    /// The absolute value; none if it is no number.
    pub fn abs(&self) -> Option<Value> {
        match self {
            Value::Int(n) => Some(Value::Int(n.map(i64::abs))),
            Value::Dec(n) => Some(Value::Dec(n.map(i64::abs))),
            _ => None,
        }
    }

    /// Its text as a string without a tag.
    pub fn str(&self) -> Value {
        let text: Option<[u8; TEXT]> = match self {
            Value::Uri(text) => {
                edge::length(Look::StrOfUri, text);
                Some(*text)
            }
            Value::Str(string) => string.map(|(_, text)| text).inspect(|text| edge::length(Look::StrOfString, text)),
            Value::Int(n) => n.map(|n| fill(n.to_string().as_bytes())),
            Value::Dec(n) => n.map(|n| fill(decimal_text(n).as_bytes())),
            Value::Time(n) => Some(fill(date_time(*n).as_bytes())),
        };
        Value::Str(text.map(|text| ([0; TAG], text)))
    }

    /// Whether two values are equal: none if they have no datatype in common, and inside it none if one is no value. Strings are by
    /// tag and text, whatever their order.
    pub fn equal(&self, other: &Value) -> Option<Option<bool>> {
        match (self, other) {
            (Value::Uri(a), Value::Uri(b)) => {
                edge::difference(Look::EqualOnUris, a, b);
                Some(Some(a == b))
            }
            (Value::Str(a), Value::Str(b)) => Some(a.zip(*b).map(|(a, b)| {
                edge::difference(Look::EqualOnStrings, &a.1, &b.1);
                a == b
            })),
            (Value::Time(a), Value::Time(b)) => Some(Some(a == b)),
            _ => self.amounts(other, |a, b| a == b),
        }
    }

    /// Whether a value is less than another, none as in [`Value::equal`]. Strings go by the ranks that are lent, and nothing else does.
    pub fn less(&self, other: &Value, lent: &Lent) -> Option<Option<bool>> {
        match (self, other) {
            (Value::Uri(a), Value::Uri(b)) => {
                edge::difference(Look::LessOnUris, a, b);
                Some(Some(a < b))
            }
            (Value::Str(a), Value::Str(b)) => Some(a.zip(*b).map(|(a, b)| {
                edge::difference(Look::LessOnStrings, &a.1, &b.1);
                lent.less(&a, &b)
            })),
            (Value::Time(a), Value::Time(b)) => Some(Some(a < b)),
            _ => self.amounts(other, |a, b| a < b),
        }
    }

    /// Two numbers by their amounts.
    fn amounts(&self, other: &Value, test: fn(i64, i64) -> bool) -> Option<Option<bool>> {
        let (a, b) = (self.amount()?, other.amount()?);
        Some(a.zip(b).map(|(a, b)| test(a, b)))
    }
}
