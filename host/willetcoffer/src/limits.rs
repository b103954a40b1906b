//! Widths, limits, lengths of lent buffers and offsets in the saved run, each named once, as the definitions name them
//! (`termTableWidth` is [`TERM_TABLE_WIDTH`]). A test compares every number here, and every one of the C header, with
//! the definitions.

/// Bytes of a URI's text and of a string's text.
pub const TEXT_WIDTH: usize = 96;
/// Bytes of a language tag.
pub const TAG_WIDTH: usize = 8;
/// Bytes of an integer, a decimal or a dateTime.
pub const NUMBER_WIDTH: usize = 8;
/// Bytes of a pattern.
pub const PATTERN_WIDTH: usize = 16;
/// Bytes of a language range.
pub const LANGUAGE_RANGE_WIDTH: usize = 8;
/// Bytes of a block's head after its kind: mode, count and four pairs.
pub const BLOCK_WIDTH: usize = 10;
/// Where a block's count of variables begins, counted from its kind.
pub const COUNT_OFFSET: usize = 2;
/// Where a block's pairs begin.
pub const PAIRS_OFFSET: usize = 3;
/// Where a block's query begins.
pub const QUERY_OFFSET: usize = 1 + BLOCK_WIDTH;
/// Where a regex's expression begins, after its pattern.
pub const REGEX_TEXT_OFFSET: usize = 1 + PATTERN_WIDTH;
/// Where a langMatches' expression begins, after its language range.
pub const LANG_MATCHES_TEXT_OFFSET: usize = 1 + LANGUAGE_RANGE_WIDTH;
/// Bytes of a term slot: the longest term record, a string's.
pub const SLOT_WIDTH: usize = 1 + TAG_WIDTH + TEXT_WIDTH;
/// Bytes of a URI's record: kind and text.
pub const URI_WIDTH: usize = 1 + TEXT_WIDTH;
/// Bytes of a schema record: kind, URI and datatype.
pub const ENTRY_WIDTH: usize = 1 + TEXT_WIDTH + 1;
/// Where a page record's property begins, counted from its kind.
pub const PROPERTY_OFFSET: usize = 1 + TEXT_WIDTH;
/// Where a page record's object begins.
pub const OBJECT_OFFSET: usize = PROPERTY_OFFSET + TEXT_WIDTH;
/// Bytes of a quad: four term numbers.
pub const QUAD_WIDTH: usize = 8;

/// Terms in use, at most.
pub const TERM_LIMIT: usize = 512;
/// Stored quads, at most.
pub const QUAD_LIMIT: usize = 512;
/// Fetched graphs, at most.
pub const GRAPH_LIMIT: usize = 64;
/// Schema entries, at most.
pub const ENTRY_LIMIT: usize = 128;
/// Script bytes, at most.
pub const SCRIPT_LIMIT: usize = 2048;
/// Depth of a record, the root being at 1, at most; and so the stack's height.
pub const DEPTH_LIMIT: usize = 24;
/// Variables of a script.
pub const VARIABLE_LIMIT: usize = 16;
/// Variables of one block, at most.
pub const PAIR_LIMIT: usize = 4;
/// Steps of one run call, at most.
pub const BUDGET_LIMIT: u64 = 60_000;
/// Bytes of a page, at most.
pub const PAGE_LIMIT: usize = 65_536;
/// Bytes of a number's text, at most.
pub const NUMBER_TEXT_LIMIT: usize = 40;
/// Largest amount of an integer.
pub const INTEGER_LIMIT: i64 = 1_000_000_000_000;
/// Largest amount of a decimal, in millionths.
pub const DECIMAL_LIMIT: i64 = 1_000_000_000_000_000_000;
/// The first dateTime, 0001-01-01T00:00:00Z, lies so many seconds before 1970.
pub const SECONDS_BEFORE: i64 = 62_135_596_800;
/// The last dateTime, 9999-12-31T23:59:59Z, lies so many seconds after it.
pub const SECONDS_AFTER: i64 = 253_402_300_799;

/// Bytes of the ranks: one for each byte from 20 to 7E.
pub const RANKS_WIDTH: usize = 95;
/// Bytes of the term table.
pub const TERM_TABLE_WIDTH: usize = TERM_LIMIT * SLOT_WIDTH;
/// Bytes of the quad table.
pub const QUAD_TABLE_WIDTH: usize = QUAD_LIMIT * QUAD_WIDTH;
/// Bytes of the record that a number call writes: kind and count.
pub const NUMBER_RECORD_WIDTH: usize = 1 + NUMBER_WIDTH;
/// Bytes of a schema of all its entries, and so of the buffer that a schema call is lent.
pub const SCHEMA_WIDTH: usize = ENTRY_LIMIT * ENTRY_WIDTH;
/// Bytes of the type printer's input, at most.
pub const PRINTER_LIMIT: usize = TERM_TABLE_WIDTH + SCHEMA_WIDTH + SCRIPT_LIMIT;

/// Where the reported types stand in the saved run: a byte for each variable.
pub const TYPES_OFFSET: usize = 6;
/// Where the marks of bound variables stand: a byte for each.
pub const BOUND_OFFSET: usize = TYPES_OFFSET + VARIABLE_LIMIT;
/// Where the bound variables' term numbers stand: two bytes for each.
pub const BINDINGS_OFFSET: usize = BOUND_OFFSET + VARIABLE_LIMIT;
/// Where the fetched graphs' term numbers stand: two bytes for each.
pub const FETCHED_OFFSET: usize = BINDINGS_OFFSET + 2 * VARIABLE_LIMIT;
/// Where the stack items stand, from the bottom.
pub const ITEMS_OFFSET: usize = FETCHED_OFFSET + 2 * GRAPH_LIMIT;
/// Bytes of a stack item.
pub const ITEM_WIDTH: usize = 4 + 2 * PAIR_LIMIT;
/// Bytes of the saved run.
pub const SAVED_WIDTH: usize = ITEMS_OFFSET + DEPTH_LIMIT * ITEM_WIDTH;
/// Bytes of a run's report.
pub const RUN_REPORT_WIDTH: usize = 8;
/// Bytes of a page call's report.
pub const PAGE_REPORT_WIDTH: usize = 4;
/// Bytes of a total call's report.
pub const TOTAL_REPORT_WIDTH: usize = 4;
/// Bytes of a suggest call's report.
pub const SUGGEST_REPORT_WIDTH: usize = 4;
/// Bytes of a schema call's report.
pub const SCHEMA_REPORT_WIDTH: usize = 8;
/// Bytes of a publish call's report.
pub const PUBLISH_REPORT_WIDTH: usize = 4;
