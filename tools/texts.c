/*
 * Texts as long as they may be, tried from C: addresses and names of 40, 41, 95 and 96 bytes go through load, page and run whole; and what has
 * the widths of before, when a text had 40 bytes, is refused. Prints what does not hold.
 *
 * C99, and C++ too. tools/c_example.sh compiles and runs it.
 */
#include <stdio.h>
#include <string.h>
#include <willetcoffer.h>

/* bytes of a text, of a slot and of the term table before */
#define OLD_TEXT_WIDTH 40
#define OLD_SLOT_WIDTH (1 + WILLETCOFFER_TAG_WIDTH + OLD_TEXT_WIDTH)
#define OLD_TERM_TABLE_WIDTH (WILLETCOFFER_TERM_LIMIT * OLD_SLOT_WIDTH)

static int failures;

static void expect(int holds, const char *what, size_t length)
{
    if (!holds) {
        printf("texts.c: %s, %u bytes\n", what, (unsigned)length);
        failures++;
    }
}

/*
 * from term 0, once: $0 has the name $1, the texts of both are the same, and the name fits ^x*y$; then success. The property is term 1,
 * which the schema adds.
 */
static const uint8_t script[] = {
    0x72, 0x32, 0, 0,
    0x73, 0, 2, 0, 0, 1, 0, 0, 0, 0, 0,
    0x62, 0x61, 0x32, 0, 0, 0x31, 0, 0x32, 1, 0, 0x31, 1,
    0x64, 0x53, 0x57, 0x42, 0x31, 0, 0x31, 1,
    0x55, '^', 'x', '*', 'y', '$', 0, 0, 0, 0, 0, 0, 0, 0, 0, 0, 0, 0x31, 1,
    0x71
};

static uint8_t terms[WILLETCOFFER_URI_WIDTH];
static uint8_t schema[WILLETCOFFER_ENTRY_WIDTH];
static uint8_t page[2 * (WILLETCOFFER_OBJECT_OFFSET + WILLETCOFFER_SLOT_WIDTH - 1)];
static uint8_t term_table[WILLETCOFFER_TERM_TABLE_WIDTH];
static uint8_t quad_table[WILLETCOFFER_QUAD_TABLE_WIDTH];
static uint8_t saved[WILLETCOFFER_SAVED_WIDTH];
static uint8_t run_report[WILLETCOFFER_RUN_REPORT_WIDTH];
static uint8_t page_report[WILLETCOFFER_PAGE_REPORT_WIDTH];

static uint32_t load(size_t schema_length, size_t table_length)
{
    return willetcoffer_load(
        willetcoffer_built_in_ranks, WILLETCOFFER_RANKS_WIDTH, terms, sizeof terms, schema, schema_length, script, sizeof script,
        term_table, table_length, quad_table, sizeof quad_table, saved, sizeof saved);
}

static uint32_t run(size_t table_length)
{
    return willetcoffer_run(
        willetcoffer_built_in_ranks, WILLETCOFFER_RANKS_WIDTH, terms, sizeof terms, schema, sizeof schema, script, sizeof script,
        term_table, table_length, quad_table, sizeof quad_table, saved, sizeof saved, 9, 0, run_report, sizeof run_report);
}

static uint32_t take_page(size_t page_length, size_t table_length)
{
    return willetcoffer_page(
        willetcoffer_built_in_ranks, WILLETCOFFER_RANKS_WIDTH, terms, sizeof terms, schema, sizeof schema, script, sizeof script,
        term_table, table_length, quad_table, sizeof quad_table, saved, sizeof saved, 0, page, page_length,
        page_report, sizeof page_report);
}

/* a text of so many bytes, all x but the last, filled with zeros to this width */
static void write_text(uint8_t *field, size_t length, char last, size_t width)
{
    memset(field, 0, width);
    memset(field, 'x', length - 1);
    field[length - 1] = (uint8_t)last;
}

/* a card of before would have its schema so: 21, the URI, the datatype */
static void write_entry(size_t length, size_t width)
{
    schema[0] = 0x21;
    write_text(schema + 1, length, 'p', width);
    schema[1 + width] = WILLETCOFFER_TYPE_STRING;
}

/* a record of kind 82: subject and name end in these bytes; gives its length */
static size_t write_record(uint8_t *record, size_t length, char subject, char name, size_t width)
{
    record[0] = 0x82;
    write_text(record + 1, length, subject, width);
    write_text(record + 1 + width, length, 'p', width);
    memset(record + 1 + 2 * width, 0, WILLETCOFFER_TAG_WIDTH);
    write_text(record + 1 + 2 * width + WILLETCOFFER_TAG_WIDTH, length, name, width);
    return 1 + 3 * width + WILLETCOFFER_TAG_WIDTH;
}

/* of two subjects with names, one has its own text as its name */
static void whole(size_t length)
{
    size_t end;
    terms[0] = 0x11;
    write_text(terms + 1, length, 'g', WILLETCOFFER_TEXT_WIDTH);
    write_entry(length, WILLETCOFFER_TEXT_WIDTH);
    expect(load(sizeof schema, sizeof term_table) == 0, "a card loads", length);
    expect(memcmp(term_table, terms, sizeof terms) == 0, "the graph stands in its slot", length);
    expect(term_table[WILLETCOFFER_SLOT_WIDTH + length] == 'p', "the property ends in its slot", length);
    end = write_record(page, length, 'z', 'y', WILLETCOFFER_TEXT_WIDTH);
    end += write_record(page + end, length, 'y', 'y', WILLETCOFFER_TEXT_WIDTH);
    expect(take_page(end, sizeof term_table) == 0 && page_report[0] == 0, "a page is taken in", length);
    expect(saved[2] == 2, "two quads", length);
    expect(run(sizeof term_table) == 0 && run_report[0] == 3 && run_report[4] == WILLETCOFFER_STATE_ENDED, "it ends", length);
    /* terms: 0 the graph, 1 the property, 2 the first subject, 3 the name, 4 the second subject */
    expect(saved[WILLETCOFFER_BINDINGS_OFFSET] == 4 && saved[WILLETCOFFER_BINDINGS_OFFSET + 2] == 3, "the second answers", length);
}

static void of_before(void)
{
    size_t end;
    expect(load(sizeof schema, OLD_TERM_TABLE_WIDTH) == WILLETCOFFER_REFUSED_LENGTH, "an old table in a load", OLD_TERM_TABLE_WIDTH);
    expect(run(OLD_TERM_TABLE_WIDTH) == WILLETCOFFER_REFUSED_LENGTH, "an old table in a run", OLD_TERM_TABLE_WIDTH);
    expect(take_page(0, OLD_TERM_TABLE_WIDTH) == WILLETCOFFER_REFUSED_LENGTH, "an old table in a page call", OLD_TERM_TABLE_WIDTH);
    end = write_record(page, OLD_TEXT_WIDTH, 'y', 'y', OLD_TEXT_WIDTH);
    expect(take_page(end, sizeof term_table) == WILLETCOFFER_REFUSED_PAGE, "an old page", end);
    end += write_record(page + end, OLD_TEXT_WIDTH, 'z', 'z', OLD_TEXT_WIDTH);
    end += write_record(page + end, OLD_TEXT_WIDTH, 'y', 'z', OLD_TEXT_WIDTH);
    expect(take_page(end, sizeof term_table) == WILLETCOFFER_REFUSED_PAGE, "an old page of three records", end);
    write_entry(OLD_TEXT_WIDTH, OLD_TEXT_WIDTH);
    end = 1 + OLD_TEXT_WIDTH + 1;
    expect(load(end, sizeof term_table) == WILLETCOFFER_REFUSED_SCHEMA_RECORD, "an old schema record", end);
}

int main(void)
{
    static const size_t lengths[] = {OLD_TEXT_WIDTH, OLD_TEXT_WIDTH + 1, WILLETCOFFER_TEXT_WIDTH - 1, WILLETCOFFER_TEXT_WIDTH};
    size_t place;
    for (place = 0; place < sizeof lengths / sizeof lengths[0]; place++)
        whole(lengths[place]);
    of_before();
    return failures != 0;
}
