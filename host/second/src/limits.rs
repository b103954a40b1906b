//! The limits and widths of documents 01 and 02, each named once.

/// Bytes of URI text and of string text in a record.
pub const TEXT: usize = 96;
/// Bytes of a language tag and of a language range.
pub const TAG: usize = 8;
/// Bytes from 20 to 7E, each with a rank.
pub const RANKS: usize = 95;
/// Bytes of a pattern.
pub const PATTERN: usize = 16;
/// Bytes of a term slot: the longest term record, a string's.
pub const SLOT: usize = 1 + TAG + TEXT;
/// Bytes of a schema record: kind, URI and datatype.
pub const ENTRY: usize = 1 + TEXT + 1;
/// Terms in use, at most.
pub const TERMS: usize = 512;
/// Stored quads, at most.
pub const QUADS: usize = 512;
/// Fetched graphs, at most.
pub const GRAPHS: usize = 64;
/// Schema entries, at most.
pub const ENTRIES: usize = 128;
/// Script bytes, at most.
pub const SCRIPT: usize = 2048;
/// Depth of a record, the root being at 1, at most.
pub const DEPTH: usize = 24;
/// Variables.
pub const VARIABLES: usize = 16;
/// Variables of one block, at most.
pub const PAIRS: usize = 4;
/// Bytes of the term table.
pub const TERM_TABLE: usize = TERMS * SLOT;
/// Bytes of the quad table.
pub const QUAD_TABLE: usize = QUADS * 8;
/// Bytes of a term number.
pub const NUMBER: usize = 2;
/// Bytes of a tuple: a number for each variable that a block may have.
pub const TUPLE: usize = PAIRS * NUMBER;
/// Bytes of the saved run.
pub const SAVED: usize = 486;
/// Bytes of a run's report.
pub const RUN_REPORT: usize = 8;
/// Bytes of a page call's report.
pub const PAGE_REPORT: usize = 4;
/// Bytes of a total call's report.
pub const TOTAL_REPORT: usize = 4;
/// Bytes of a suggest call's report.
pub const SUGGEST_REPORT: usize = 4;
/// Bytes of the buffer that a schema call fills from the front: a schema of all its entries.
pub const SCHEMA: usize = ENTRIES * ENTRY;
/// Bytes of a schema call's report.
pub const SCHEMA_REPORT: usize = 8;
/// Bytes of a publish call's report.
pub const PUBLISH_REPORT: usize = 4;
/// Bytes of a number's text, at most.
pub const NUMBER_TEXT: usize = 40;
/// Bytes of a number's record: kind and count.
pub const NUMBER_RECORD: usize = 9;
/// Steps of one run call, at most.
pub const BUDGET: u64 = 60_000;
/// Bytes of a page, at most.
pub const PAGE: usize = 65_536;
/// Bytes of the type printer's input, at most: terms, schema and script that are full.
pub const PRINTER: usize = TERMS * SLOT + SCHEMA + SCRIPT;
/// Bytes of the input of the evaluator of tuples, at most: ranks, three lengths of 2, terms, schema and script that are full, both
/// tables, the saved run, now of 8, and 64 tuples.
pub const EVALUATOR: usize = RANKS + 3 * 2 + PRINTER + TERM_TABLE + QUAD_TABLE + SAVED + 8 + 64 * TUPLE;
/// Largest amount of an integer.
pub const INTEGER: i64 = 1_000_000_000_000;
/// Millionths in one.
pub const MILLION: i64 = 1_000_000;
/// Largest amount of a decimal, in millionths.
pub const DECIMAL: i64 = 1_000_000_000_000_000_000;
/// First dateTime, 0001-01-01T00:00:00Z, in seconds from 1970.
pub const FIRST_SECOND: i64 = -62_135_596_800;
/// Last dateTime, 9999-12-31T23:59:59Z.
pub const LAST_SECOND: i64 = 253_402_300_799;
