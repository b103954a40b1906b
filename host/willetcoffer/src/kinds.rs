//! Kinds of records: the byte that each one begins with.

/// A term: a URI.
pub const URI: u8 = 0x11;
/// A term: a string.
pub const STRING: u8 = 0x12;
/// A term: an integer.
pub const INTEGER: u8 = 0x13;
/// A term: a decimal.
pub const DECIMAL: u8 = 0x14;
/// A term: a dateTime.
pub const DATE_TIME: u8 = 0x15;
/// A schema entry.
pub const ENTRY: u8 = 0x21;
/// A variable.
pub const VARIABLE: u8 = 0x31;
/// A constant.
pub const CONSTANT: u8 = 0x32;
/// An expression: the time of the run call.
pub const NOW: u8 = 0x41;
/// An expression: the text of a value.
pub const STR: u8 = 0x42;
/// An expression: the amount of a number.
pub const ABS: u8 = 0x43;
/// An expression: a sum.
pub const PLUS: u8 = 0x44;
/// An expression: a difference.
pub const MINUS: u8 = 0x45;
/// A boolean: false.
pub const FALSE: u8 = 0x50;
/// A boolean: true.
pub const TRUE: u8 = 0x51;
/// A boolean: or.
pub const OR: u8 = 0x52;
/// A boolean: and.
pub const AND: u8 = 0x53;
/// A boolean: not.
pub const NOT: u8 = 0x54;
/// A boolean: a pattern on a text.
pub const REGEX: u8 = 0x55;
/// A boolean: a language range on a tag.
pub const LANG_MATCHES: u8 = 0x56;
/// A boolean: whether two values are equal.
pub const EQUAL: u8 = 0x57;
/// A boolean: whether one value is less than another.
pub const LESS: u8 = 0x58;
/// A query: a stored quad.
pub const PATTERN: u8 = 0x61;
/// A query: both of two.
pub const BOTH: u8 = 0x62;
/// A query: one of two.
pub const UNION: u8 = 0x63;
/// A query: a boolean.
pub const FILTER: u8 = 0x64;
/// A query that holds always.
pub const EMPTY: u8 = 0x65;
/// A script that does nothing.
pub const SUCCESS: u8 = 0x71;
/// A script once a graph is fetched.
pub const FROM_NAMED: u8 = 0x72;
/// A script for answers of a query.
pub const BLOCK: u8 = 0x73;
/// A script after another.
pub const SEQUENCE: u8 = 0x74;
/// A page record has the kind of its object, and so much more.
pub const PAGE: u8 = 0x70;
