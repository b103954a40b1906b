//! Refusals.

use std::error::Error;
use std::fmt;

/// Why a call was refused. Every lent buffer has kept its bytes.
///
/// ```
/// use willetcoffer::Refusal;
/// assert_eq!(Refusal::from_number(8), Refusal::NoTyping);
/// assert_eq!(Refusal::NoTyping.number(), 8);
/// assert_eq!(Refusal::NoTyping.to_string(), "refused 8: no typing");
/// ```
#[derive(Clone, Copy, PartialEq, Eq, Hash, Debug)]
#[non_exhaustive]
pub enum Refusal {
    /// 1: a lent buffer of another length.
    Length,
    /// 2: a bad term record.
    TermRecord,
    /// 3: a term listed twice.
    TermTwice,
    /// 4: a bad schema record.
    SchemaRecord,
    /// 5: a property twice in the schema.
    PropertyTwice,
    /// 6: a malformed script, or a limit passed on terms, entries or script bytes.
    Script,
    /// 7: a variable unbound at its use, or bound by two pairs.
    Scope,
    /// 8: no typing.
    NoTyping,
    /// 9: typings, but none above the rest.
    NoGreatest,
    /// 10: saved run or tables unsound.
    Unsound,
    /// 11: a budget over the limit, or a now that is no dateTime.
    RunCall,
    /// 12: the page's graph is no URI of the term table.
    PageGraph,
    /// 13: a page over its limit, or a bad record in it.
    Page,
    /// 14: terms, quads or graphs would pass their limits.
    Room,
    /// 16: a text that has not the form or the length of a number's.
    NumberText,
    /// 17: a number outside the limits of its kind, or no whole count of millionths.
    NumberValue,
    /// 19: more subjects of a page would get a schema entry than a schema has.
    TooManyEntries,
    /// 21: lent ranks that are not each rank from 0 to 94 once.
    Ranks,
    /// 22: the graph is not among the fetched ones.
    NotFetched,
    /// 23: the lent buffer is shorter than the page.
    ShortBuffer,
    /// A number that this version of the library does not know.
    Other(u32),
}

/// Each refusal with its number and its condition.
const TABLE: [(u32, Refusal, &str); 20] = [
    (1, Refusal::Length, "a lent buffer of another length"),
    (2, Refusal::TermRecord, "bad term record"),
    (3, Refusal::TermTwice, "a term listed twice"),
    (4, Refusal::SchemaRecord, "bad schema record"),
    (5, Refusal::PropertyTwice, "a property twice in the schema"),
    (6, Refusal::Script, "script malformed, or a limit passed on terms, entries or script bytes"),
    (7, Refusal::Scope, "a variable unbound at its use, or bound by two pairs"),
    (8, Refusal::NoTyping, "no typing"),
    (9, Refusal::NoGreatest, "typings, none above the rest"),
    (10, Refusal::Unsound, "saved run or tables unsound"),
    (11, Refusal::RunCall, "budget over its limit, or now no dateTime"),
    (12, Refusal::PageGraph, "page graph no URI of the table"),
    (13, Refusal::Page, "page over its limit, or a bad record in it"),
    (14, Refusal::Room, "terms, quads or graphs would pass their limits"),
    (16, Refusal::NumberText, "text not of a number's form or length"),
    (17, Refusal::NumberValue, "number outside its kind's limits, or no whole count of millionths"),
    (19, Refusal::TooManyEntries, "more than 128 subjects of the page would get a schema entry"),
    (21, Refusal::Ranks, "ranks that are not each rank from 0 to 94 once"),
    (22, Refusal::NotFetched, "graph not fetched"),
    (23, Refusal::ShortBuffer, "buffer shorter than the page"),
];

impl Refusal {
    /// All that this version knows, by number.
    pub fn all() -> impl Iterator<Item = Refusal> {
        TABLE.iter().map(|(_, refusal, _)| *refusal)
    }

    /// The refusal of this number; 0, which is no refusal, is [`Refusal::Other`] too.
    pub fn from_number(number: u32) -> Refusal {
        TABLE.iter().find(|row| row.0 == number).map_or(Refusal::Other(number), |row| row.1)
    }

    /// Its number.
    pub fn number(self) -> u32 {
        match self {
            Refusal::Other(number) => number,
            known => TABLE.iter().find(|row| row.1 == known).map_or(0, |row| row.0),
        }
    }

    /// What a call's number says.
    pub(crate) fn unless_zero(number: u32) -> Result<(), Refusal> {
        match number {
            0 => Ok(()),
            number => Err(Refusal::from_number(number)),
        }
    }
}

impl fmt::Display for Refusal {
    fn fmt(&self, f: &mut fmt::Formatter<'_>) -> fmt::Result {
        let condition = TABLE.iter().find(|row| row.1 == *self).map_or("for an unknown reason", |row| row.2);
        write!(f, "refused {}: {condition}", self.number())
    }
}

impl Error for Refusal {}
