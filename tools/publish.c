/*
 * Graphs as pages, tried from C: records of all kinds and with texts as long as they may be, into buffers that are short, exact and longer;
 * taken in again; and each refusal, with every lent byte kept. Prints what does not hold.
 *
 * C99, and C++ too. tools/c_example.sh compiles and runs it.
 */
#include <stdio.h>
#include <string.h>
#include <willetcoffer.h>

enum { ROOM = 4096, RECORDS = 7, UNWRITTEN = 0xAA, YARD = 0, OTHER = 1, NOTHING = 500 };

static int failures;

static void expect(int holds, const char *what)
{
    if (!holds) {
        printf("publish.c: %s\n", what);
        failures++;
    }
}

static const uint8_t script[] = {0x71};

static uint8_t terms[2 * WILLETCOFFER_URI_WIDTH];
static uint8_t schema[5 * WILLETCOFFER_ENTRY_WIDTH];
static uint8_t term_table[WILLETCOFFER_TERM_TABLE_WIDTH];
static uint8_t quad_table[WILLETCOFFER_QUAD_TABLE_WIDTH];
static uint8_t saved[WILLETCOFFER_SAVED_WIDTH];
static uint8_t page_report[WILLETCOFFER_PAGE_REPORT_WIDTH];
static uint8_t report[WILLETCOFFER_PUBLISH_REPORT_WIDTH];
static uint8_t published[ROOM];

/* a text of as many bytes as there may be: x and a last one */
static uint8_t *put_text(uint8_t *at, char last)
{
    memset(at, 'x', WILLETCOFFER_TEXT_WIDTH);
    at[WILLETCOFFER_TEXT_WIDTH - 1] = (uint8_t)last;
    return at + WILLETCOFFER_TEXT_WIDTH;
}

/* subject, and the property of these objects: URIs, strings, decimals, dateTimes, integers */
static uint8_t *put_triple(uint8_t *at, int kind, char subject, char property)
{
    *at = (uint8_t)kind;
    return put_text(put_text(at + 1, subject), property);
}

static uint8_t *put_number(uint8_t *at, int64_t number)
{
    int i;
    for (i = 0; i < WILLETCOFFER_NUMBER_WIDTH; i++)
        *at++ = (uint8_t)((uint64_t)number >> 8 * i & 0xff);
    return at;
}

/* record 0 to 6, rising; gives where it ends */
static uint8_t *put_record(uint8_t *at, int record)
{
    switch (record) {
    case 0:
        return put_text(put_triple(at, 0x81, 's', 'u'), 'a');
    case 1:
        return put_text(put_triple(at, 0x81, 't', 'u'), 'a');
    case 2:
        at = put_triple(at, 0x82, 'a', 's');
        memcpy(at, "en\0\0\0\0\0\0", WILLETCOFFER_TAG_WIDTH);
        return put_text(at + WILLETCOFFER_TAG_WIDTH, 'a');
    case 3: /* 00 01 before 01 00 */
        return put_number(put_triple(at, 0x83, 'a', 'i'), 256);
    case 4:
        return put_number(put_triple(at, 0x83, 'a', 'i'), 1);
    case 5:
        return put_number(put_triple(at, 0x84, 'a', 'd'), -1);
    default:
        return put_number(put_triple(at, 0x85, 'a', 't'), 0);
    }
}

static void write_card(void)
{
    static const char properties[] = {'u', 's', 'd', 't', 'i'}; /* by the code of their datatype */
    int i;
    terms[0] = terms[WILLETCOFFER_URI_WIDTH] = 0x11;
    put_text(terms + 1, 'g');
    put_text(terms + WILLETCOFFER_URI_WIDTH + 1, 'h');
    for (i = 0; i < 5; i++) {
        uint8_t *entry = schema + i * WILLETCOFFER_ENTRY_WIDTH;
        entry[0] = 0x21;
        *put_text(entry + 1, properties[i]) = (uint8_t)(i + 1);
    }
}

static uint32_t load(void)
{
    return willetcoffer_load(
        willetcoffer_built_in_ranks, WILLETCOFFER_RANKS_WIDTH, terms, sizeof terms, schema, sizeof schema, script, sizeof script,
        term_table, sizeof term_table, quad_table, sizeof quad_table, saved, sizeof saved);
}

static uint32_t take_page(uint64_t graph, const uint8_t *page, size_t length)
{
    return willetcoffer_page(
        willetcoffer_built_in_ranks, WILLETCOFFER_RANKS_WIDTH, terms, sizeof terms, schema, sizeof schema, script, sizeof script,
        term_table, sizeof term_table, quad_table, sizeof quad_table, saved, sizeof saved, graph, page, length, page_report, sizeof page_report);
}

/* what is lent: the length of the saved run, the buffer and the report */
static uint32_t publish(uint64_t graph, size_t room, size_t saved_length, size_t report_length)
{
    memset(published, UNWRITTEN, sizeof published);
    memset(report, UNWRITTEN, sizeof report);
    return willetcoffer_publish(
        terms, sizeof terms, schema, sizeof schema, script, sizeof script, term_table, sizeof term_table, quad_table, sizeof quad_table,
        saved, saved_length, graph, published, room, report, report_length);
}

static int unwritten(const uint8_t *bytes, size_t length)
{
    size_t i;
    for (i = 0; i < length; i++)
        if (bytes[i] != UNWRITTEN)
            return 0;
    return 1;
}

static size_t told(void)
{
    return (size_t)report[0] | (size_t)report[1] << 8 | (size_t)report[2] << 16 | (size_t)report[3] << 24;
}

static void buffers(const uint8_t *page, size_t length)
{
    static const int more[] = {0, 1, 300};
    size_t i;
    for (i = 0; i < sizeof more / sizeof more[0]; i++) {
        size_t room = length + (size_t)more[i];
        expect(publish(YARD, room, sizeof saved, sizeof report) == 0, "a graph is published");
        expect(told() == length && memcmp(published, page, length) == 0, "its records rise, and their length is told");
        expect(unwritten(published + length, sizeof published - length), "what follows the page stays");
    }
    expect(publish(OTHER, 0, sizeof saved, sizeof report) == 0 && told() == 0, "an empty graph is an empty page");
}

/* a call that is refused with this number writes nothing */
static void refused(uint32_t number, uint32_t due, const char *what)
{
    expect(number == due, what);
    expect(unwritten(published, sizeof published) && unwritten(report, sizeof report), what);
}

static void refusals(size_t length)
{
    static uint8_t kept[WILLETCOFFER_QUAD_WIDTH];
    refused(publish(YARD, length - 1, sizeof saved, sizeof report), WILLETCOFFER_REFUSED_SHORT_BUFFER, "a buffer one byte short");
    refused(publish(YARD, 0, sizeof saved, sizeof report), WILLETCOFFER_REFUSED_SHORT_BUFFER, "an empty buffer");
    refused(publish(NOTHING, 0, sizeof saved, sizeof report), WILLETCOFFER_REFUSED_NOT_FETCHED, "a number past the terms");
    refused(publish((uint64_t)1 << 32, length, sizeof saved, sizeof report), WILLETCOFFER_REFUSED_NOT_FETCHED, "a number of more bits");
    refused(publish(2, length, sizeof saved, sizeof report), WILLETCOFFER_REFUSED_NOT_FETCHED, "a property that is no graph");
    memcpy(kept, quad_table, sizeof kept);
    quad_table[2] = quad_table[3] = 0xff;
    refused(publish(NOTHING, 0, sizeof saved, sizeof report), WILLETCOFFER_REFUSED_UNSOUND, "a quad that names no term");
    refused(publish(NOTHING, 0, sizeof saved, sizeof report - 1), WILLETCOFFER_REFUSED_LENGTH, "a short report");
    refused(publish(NOTHING, 0, sizeof saved - 1, sizeof report), WILLETCOFFER_REFUSED_LENGTH, "a short saved run");
    memcpy(quad_table, kept, sizeof kept);
}

/* taken in again the page leaves all as it was */
static void again(const uint8_t *page, size_t length)
{
    static uint8_t terms_before[sizeof term_table], quads_before[sizeof quad_table], saved_before[sizeof saved];
    memcpy(terms_before, term_table, sizeof term_table);
    memcpy(quads_before, quad_table, sizeof quad_table);
    memcpy(saved_before, saved, sizeof saved);
    expect(take_page(YARD, page, length) == 0 && page_report[0] == 0, "a published page is taken in, and nothing is skipped");
    expect(memcmp(terms_before, term_table, sizeof term_table) == 0, "its terms are there already");
    expect(memcmp(quads_before, quad_table, sizeof quad_table) == 0, "its quads are there already");
    expect(memcmp(saved_before, saved, sizeof saved) == 0, "the saved run stays");
}

int main(void)
{
    static uint8_t page[ROOM], turned[ROOM];
    uint8_t *end = page, *last = turned;
    size_t length;
    int i;
    for (i = 0; i < RECORDS; i++)
        end = put_record(end, i);
    /* from the last on, the first twice */
    for (i = RECORDS - 1; i >= 0; i--)
        last = put_record(last, i);
    last = put_record(last, 0);
    length = (size_t)(end - page);
    write_card();
    expect(load() == 0, "a card loads");
    expect(publish(YARD, ROOM, sizeof saved, sizeof report) == WILLETCOFFER_REFUSED_NOT_FETCHED, "nothing is fetched yet");
    expect(take_page(YARD, turned, (size_t)(last - turned)) == 0 && page_report[0] == 0, "a page is taken in");
    expect(take_page(OTHER, page, 0) == 0, "an empty page is taken in");
    buffers(page, length);
    refusals(length);
    again(page, length);
    buffers(page, length);
    return failures != 0;
}
