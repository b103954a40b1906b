//! The calls over buffers of any length, each giving 0 or the number of its refusal: what the C interface is, with slices.
//!
//! [`Card`] has the same calls with buffers that always fit, and [`number`](crate::number()) and
//! [`schema_of_page`](crate::schema_of_page) stand by themselves. All that is `unsafe` in this workspace stands here.

use crate::card::Card;

// Each slice of the C interface passes as a pointer and a length. A test compares these declarations, and those of the C
// header, with the exported functions.
extern "C" {
    fn willetcoffer_load(
        ranks: *const u8,
        ranks_length: usize,
        terms: *const u8,
        terms_length: usize,
        schema: *const u8,
        schema_length: usize,
        script: *const u8,
        script_length: usize,
        term_table: *mut u8,
        term_table_length: usize,
        quad_table: *mut u8,
        quad_table_length: usize,
        saved: *mut u8,
        saved_length: usize,
    ) -> u32;

    fn willetcoffer_run(
        ranks: *const u8,
        ranks_length: usize,
        terms: *const u8,
        terms_length: usize,
        schema: *const u8,
        schema_length: usize,
        script: *const u8,
        script_length: usize,
        term_table: *const u8,
        term_table_length: usize,
        quad_table: *const u8,
        quad_table_length: usize,
        saved: *mut u8,
        saved_length: usize,
        budget: u64,
        now: i64,
        report: *mut u8,
        report_length: usize,
    ) -> u32;

    fn willetcoffer_page(
        ranks: *const u8,
        ranks_length: usize,
        terms: *const u8,
        terms_length: usize,
        schema: *const u8,
        schema_length: usize,
        script: *const u8,
        script_length: usize,
        term_table: *mut u8,
        term_table_length: usize,
        quad_table: *mut u8,
        quad_table_length: usize,
        saved: *mut u8,
        saved_length: usize,
        graph: u64,
        page: *const u8,
        page_length: usize,
        report: *mut u8,
        report_length: usize,
    ) -> u32;

    fn willetcoffer_total(
        terms: *const u8,
        terms_length: usize,
        schema: *const u8,
        schema_length: usize,
        script: *const u8,
        script_length: usize,
        report: *mut u8,
        report_length: usize,
    ) -> u32;

    fn willetcoffer_suggest(
        terms: *const u8,
        terms_length: usize,
        schema: *const u8,
        schema_length: usize,
        script: *const u8,
        script_length: usize,
        report: *mut u8,
        report_length: usize,
    ) -> u32;

    fn willetcoffer_publish(
        terms: *const u8,
        terms_length: usize,
        schema: *const u8,
        schema_length: usize,
        script: *const u8,
        script_length: usize,
        term_table: *const u8,
        term_table_length: usize,
        quad_table: *const u8,
        quad_table_length: usize,
        saved: *const u8,
        saved_length: usize,
        graph: u64,
        page: *mut u8,
        page_length: usize,
        report: *mut u8,
        report_length: usize,
    ) -> u32;

    fn willetcoffer_number(text: *const u8, text_length: usize, record: *mut u8, record_length: usize) -> u32;

    fn willetcoffer_schema(
        page: *const u8,
        page_length: usize,
        schema: *mut u8,
        schema_length: usize,
        report: *mut u8,
        report_length: usize,
    ) -> u32;
}

/// The tables of a call that writes them; ranks are only read.
pub struct TablesMut<'a> {
    /// The ranks.
    pub ranks: &'a [u8],
    /// The term table.
    pub terms: &'a mut [u8],
    /// The quad table.
    pub quads: &'a mut [u8],
}

/// The tables of a call that only reads them.
#[derive(Clone, Copy)]
pub struct TablesRef<'a> {
    /// The ranks.
    pub ranks: &'a [u8],
    /// The term table.
    pub terms: &'a [u8],
    /// The quad table.
    pub quads: &'a [u8],
}

/// Makes a call of the C interface, its arguments in their order: slices that it reads, slices that it writes, numbers that it is given.
macro_rules! call {
    ($name:ident, $($(read($($read:expr),*))? $(write($($write:expr),*))? $(give($($number:expr),*))?),*) => {
        // SAFETY: each pointer comes with the length of the slice it was taken from; the slices outlive the call, and those that
        // it writes overlap no other, being borrowed mutably. The call reads and writes within these lengths and keeps no
        // pointer (proved of the exported function).
        unsafe {
            $name($(
                $($($read.as_ptr(), $read.len(),)*)?
                $($($write.as_mut_ptr(), $write.len(),)*)?
                $($($number,)*)?
            )*)
        }
    };
}

/// Loads a card: on 0 both tables and the saved run are written, else nothing is.
pub fn load(card: &Card, tables: TablesMut<'_>, saved: &mut [u8]) -> u32 {
    call!(
        willetcoffer_load,
        read(tables.ranks, card.terms, card.schema, card.script),
        write(tables.terms, tables.quads, saved)
    )
}

/// Takes up to `budget` steps: on 0 the saved run and the report are written, else nothing is.
pub fn run(card: &Card, tables: TablesRef<'_>, saved: &mut [u8], budget: u64, now: i64, report: &mut [u8]) -> u32 {
    call!(
        willetcoffer_run,
        read(tables.ranks, card.terms, card.schema, card.script, tables.terms, tables.quads),
        write(saved),
        give(budget, now),
        write(report)
    )
}

/// Takes a page in: on 0 both tables, the saved run and the report are written, else nothing is.
pub fn page(card: &Card, tables: TablesMut<'_>, saved: &mut [u8], graph: u64, page: &[u8], report: &mut [u8]) -> u32 {
    call!(
        willetcoffer_page,
        read(tables.ranks, card.terms, card.schema, card.script),
        write(tables.terms, tables.quads, saved),
        give(graph),
        read(page),
        write(report)
    )
}

/// Tells how many steps a script takes in all: on 0 the report is written, else nothing is.
pub fn total(card: &Card, report: &mut [u8]) -> u32 {
    call!(willetcoffer_total, read(card.terms, card.schema, card.script), write(report))
}

/// Names one written type that would do: on 0 the report is written, else nothing is.
pub fn suggest(card: &Card, report: &mut [u8]) -> u32 {
    call!(willetcoffer_suggest, read(card.terms, card.schema, card.script), write(report))
}

/// Writes a fetched graph as a page: on 0 the front of `page` and the report are written, else nothing is. The ranks of the tables are not
/// lent to it.
pub fn publish(
    card: &Card,
    tables: TablesRef<'_>,
    saved: &[u8],
    graph: u64,
    page: &mut [u8],
    report: &mut [u8],
) -> u32 {
    call!(
        willetcoffer_publish,
        read(card.terms, card.schema, card.script, tables.terms, tables.quads, saved),
        give(graph),
        write(page, report)
    )
}

/// Reads the text of a number: on 0 the record is written, else nothing is.
pub fn number(text: &[u8], record: &mut [u8]) -> u32 {
    call!(willetcoffer_number, read(text), write(record))
}

/// Gathers a schema from a page: on 0 the front of the schema and the report are written, else nothing is.
pub fn schema(page: &[u8], schema: &mut [u8], report: &mut [u8]) -> u32 {
    call!(willetcoffer_schema, read(page), write(schema, report))
}
