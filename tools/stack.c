/*
 * stack.c: how much stack the calls use, in bytes below the caller's frame. Each call is made on a painted stack of its own; what is
 * no longer paint afterwards was used. Prints the table of docs/TRUST.md, call by call and card by card:
 *
 *     cc -O1 -Iinclude tools/stack.c target/staticlib/libexports.a -lpthread -o stack && ./stack
 */
#define _GNU_SOURCE
#include <pthread.h>
#include <stdio.h>
#include <stdlib.h>
#include <string.h>
#include <sys/mman.h>
#include <willetcoffer.h>

enum { STACK_BYTES = 4 << 20, PAINT = 0xA5, NOW = 0, ONE_STEP = 1, PLUS_RECORDS = 20 };
enum { FIRST_URI = 1, URIS = WILLETCOFFER_TERM_LIMIT - WILLETCOFFER_ENTRY_LIMIT - FIRST_URI };

typedef struct {
    uint8_t terms[WILLETCOFFER_TERM_TABLE_WIDTH];
    size_t terms_length;
    uint8_t schema[WILLETCOFFER_SCHEMA_WIDTH];
    size_t schema_length;
    uint8_t script[WILLETCOFFER_SCRIPT_LIMIT];
    size_t script_length;
} Card;

typedef struct {
    uint8_t term_table[WILLETCOFFER_TERM_TABLE_WIDTH];
    uint8_t quad_table[WILLETCOFFER_QUAD_TABLE_WIDTH];
    uint8_t saved[WILLETCOFFER_SAVED_WIDTH];
    uint8_t run_report[WILLETCOFFER_RUN_REPORT_WIDTH];
    uint8_t report[WILLETCOFFER_PAGE_REPORT_WIDTH];
    uint8_t page[WILLETCOFFER_PAGE_LIMIT];
    size_t page_length;
    uint8_t published[WILLETCOFFER_QUAD_LIMIT * (WILLETCOFFER_OBJECT_OFFSET + WILLETCOFFER_SLOT_WIDTH - 1)];
} Station;

/* CALLS of them are lent a card; the number call is lent a text alone, the schema call a page. */
typedef enum { LOAD, RUN, PAGE, PUBLISH, TOTAL, SUGGEST, CALLS, NUMBER = CALLS, SCHEMA } Call;

static Card card;
static Station station;
static const char *text;
static size_t text_length;
static uint8_t record[WILLETCOFFER_NUMBER_RECORD_WIDTH];
static uint8_t gathered[WILLETCOFFER_SCHEMA_WIDTH];
static uint8_t gathered_report[WILLETCOFFER_SCHEMA_REPORT_WIDTH];

/* ---- one call on a painted stack ------------------------------------------------------------------------------------- */

typedef struct {
    Call call;
    size_t report_length; /* as wide as it has to be, or a byte less, which meets 1 */
    size_t graph;
    uint32_t number;
    uint8_t *frame;
} Job;

static uint32_t make(const Job *j) {
    const uint8_t *ranks = willetcoffer_built_in_ranks;
    size_t table = WILLETCOFFER_TERM_TABLE_WIDTH, quads = WILLETCOFFER_QUAD_TABLE_WIDTH, saved = WILLETCOFFER_SAVED_WIDTH;
    switch (j->call) {
    case LOAD:
        return willetcoffer_load(ranks, WILLETCOFFER_RANKS_WIDTH, card.terms, card.terms_length, card.schema, card.schema_length, card.script,
            card.script_length, station.term_table, table, station.quad_table, quads, station.saved, saved - !j->report_length);
    case RUN:
        return willetcoffer_run(ranks, WILLETCOFFER_RANKS_WIDTH, card.terms, card.terms_length, card.schema, card.schema_length, card.script,
            card.script_length, station.term_table, table, station.quad_table, quads, station.saved, saved, ONE_STEP, NOW, station.run_report,
            j->report_length ? WILLETCOFFER_RUN_REPORT_WIDTH : 0);
    case PAGE:
        return willetcoffer_page(ranks, WILLETCOFFER_RANKS_WIDTH, card.terms, card.terms_length, card.schema, card.schema_length, card.script,
            card.script_length, station.term_table, table, station.quad_table, quads, station.saved, saved, j->graph, station.page,
            station.page_length, station.report, j->report_length);
    case SUGGEST:
        return willetcoffer_suggest(card.terms, card.terms_length, card.schema, card.schema_length, card.script, card.script_length, station.report,
            j->report_length);
    case SCHEMA:
        return willetcoffer_schema(station.page, station.page_length, gathered, sizeof gathered, gathered_report, sizeof gathered_report - !j->report_length);
    case NUMBER:
        return willetcoffer_number((const uint8_t *)text, text_length, record, sizeof record - !j->report_length);
    case PUBLISH:
        return willetcoffer_publish(card.terms, card.terms_length, card.schema, card.schema_length, card.script, card.script_length,
            station.term_table, table, station.quad_table, quads, station.saved, saved, j->graph, station.published, sizeof station.published,
            station.report, j->report_length);
    default:
        return willetcoffer_total(card.terms, card.terms_length, card.schema, card.schema_length, card.script, card.script_length, station.report,
            j->report_length);
    }
}

static void *begin(void *arg) {
    Job *j = arg;
    j->frame = __builtin_frame_address(0);
    j->number = make(j);
    return NULL;
}

/* The bytes used below the caller's frame; the call has to give the number that is expected. */
static size_t used(Call call, size_t report_length, size_t graph, uint32_t expected) {
    uint8_t *stack = mmap(NULL, STACK_BYTES, PROT_READ | PROT_WRITE, MAP_PRIVATE | MAP_ANONYMOUS, -1, 0);
    Job j = { call, report_length, graph, 0, NULL };
    pthread_attr_t attributes;
    pthread_t thread;
    size_t low = 0, bytes;
    memset(stack, PAINT, STACK_BYTES);
    pthread_attr_init(&attributes);
    pthread_attr_setstack(&attributes, stack, STACK_BYTES);
    if (pthread_create(&thread, &attributes, begin, &j) != 0 || pthread_join(thread, NULL) != 0 || j.number != expected) {
        fprintf(stderr, "call %d gave %u in the place of %u\n", call, (unsigned)j.number, (unsigned)expected);
        exit(1);
    }
    while (stack[low] == PAINT) low++;
    bytes = (size_t)(j.frame - (stack + low));
    munmap(stack, STACK_BYTES);
    return bytes;
}

/* ---- cards and pages ---------------------------------------------------------------------------------------------------- */

/* A URI's field: a letter and a number. */
static uint8_t *put_uri(uint8_t *at, char letter, size_t number) {
    memset(at, 0, WILLETCOFFER_TEXT_WIDTH);
    snprintf((char *)at, WILLETCOFFER_TEXT_WIDTH, "%c:%03zu", letter, number);
    return at + WILLETCOFFER_TEXT_WIDTH;
}

/* The integer 1, then URIs: the term numbers of these begin with FIRST_URI. */
static void list_terms(size_t uris) {
    static const uint8_t one[] = { 0x13, 1, 0, 0, 0, 0, 0, 0, 0 };
    uint8_t *at = card.terms + sizeof one;
    memcpy(card.terms, one, sizeof one);
    for (size_t i = 0; i < uris; i++) {
        *at = 0x11;
        at = put_uri(at + 1, 'u', i);
    }
    card.terms_length = (size_t)(at - card.terms);
}

static void list_entries(size_t count) {
    uint8_t *at = card.schema;
    for (size_t i = 0; i < count; i++) {
        *at = 0x21;
        at = put_uri(at + 1, 'p', i);
        *at++ = WILLETCOFFER_TYPE_ANY_URI;
    }
    card.schema_length = (size_t)(at - card.schema);
}

static void put_script(const uint8_t *script, size_t length) {
    memcpy(card.script, script, length);
    card.script_length = length;
}

/* So many records u p u, from one on: subjects go round the URIs, properties the schema. */
static void fill_page(size_t first, size_t count) {
    uint8_t *at = station.page;
    for (size_t i = first; i < first + count; i++) {
        *at = 0x81;
        at = put_uri(at + 1, 'u', i % URIS);
        at = put_uri(at, 'p', i % WILLETCOFFER_ENTRY_LIMIT);
        at = put_uri(at, 'u', (i + 1) % URIS);
    }
    station.page_length = (size_t)(at - station.page);
}

/* The script 71 and no term; for a page, its graph alone. */
static void smallest(int with_graph) {
    static const uint8_t script[] = { 0x71 };
    card.terms[0] = 0x11;
    put_uri(card.terms + 1, 'u', 0);
    card.terms_length = with_graph ? WILLETCOFFER_URI_WIDTH : 0;
    card.schema_length = 0;
    put_script(script, sizeof script);
    station.page_length = 0;
}

/* Terms and entries up to their limits, and a block over the empty query. */
static void full(void) {
    static const uint8_t script[] = { 0x73, 0, 0, 0, 0, 0, 0, 0, 0, 0, 0, 0x65, 0x71 };
    list_terms(URIS);
    list_entries(WILLETCOFFER_ENTRY_LIMIT);
    put_script(script, sizeof script);
}

/* The same with a filter in which sums stand inside each other, down to the last depth. */
static void deepest(void) {
    static const uint8_t head[] = { 0x73, 0, 0, 0, 0, 0, 0, 0, 0, 0, 0, 0x64, 0x57 };
    static const uint8_t one[] = { 0x32, 0, 0 };
    uint8_t *at = card.script;
    full();
    memcpy(at, head, sizeof head);
    at += sizeof head;
    memset(at, 0x44, PLUS_RECORDS);
    at += PLUS_RECORDS;
    for (int i = 0; i < PLUS_RECORDS + 2; i++, at += sizeof one) memcpy(at, one, sizeof one);
    *at++ = 0x71;
    card.script_length = (size_t)(at - card.script);
}

/* Sequences inside each other down to the last depth, which a total uses most for. */
static void sequences(void) {
    memset(card.script, 0x74, WILLETCOFFER_DEPTH_LIMIT - 1);
    memset(card.script + WILLETCOFFER_DEPTH_LIMIT - 1, 0x71, WILLETCOFFER_DEPTH_LIMIT);
    card.script_length = 2 * WILLETCOFFER_DEPTH_LIMIT - 1;
}

/* An open variable that is used nowhere, so that a suggest call tries types. */
static void undecided(void) {
    const uint8_t head[1 + WILLETCOFFER_BLOCK_WIDTH + 1] = { 0x73, 0, 1, 0, 0, 0, 0, 0, 0, 0, 0, 0x65 };
    memcpy(card.script, head, sizeof head);
    card.script[sizeof head] = 0x71;
    card.script_length = sizeof head + 1;
}

/* A page of two records that ask of one subject. */
static void asking(void) {
    const char *range[2] = { "xsd:integer", "xsd:decimal" };
    size_t width = WILLETCOFFER_OBJECT_OFFSET + WILLETCOFFER_TEXT_WIDTH;
    memset(station.page, 0, 2 * width);
    for (size_t i = 0; i < 2; i++) {
        uint8_t *at = station.page + i * width;
        at[0] = 0x81;
        memcpy(at + 1, "p:speed", 7);
        memcpy(at + 1 + WILLETCOFFER_TEXT_WIDTH, "rdfs:range", 10);
        memcpy(at + WILLETCOFFER_OBJECT_OFFSET, range[i], 11);
    }
    station.page_length = 2 * width;
}

/* whether a quad comes before another, by its four numbers */
static int comes_before(const uint8_t *a, const uint8_t *b) {
    for (int at = 0; at < WILLETCOFFER_QUAD_WIDTH; at += 2) {
        int difference = (a[at] | a[at + 1] << 8) - (b[at] | b[at + 1] << 8);
        if (difference != 0) return difference < 0;
    }
    return 0;
}

/* ---- the table -------------------------------------------------------------------------------------------------------------- */

static void print_row(const char *name, const size_t bytes[CALLS]) {
    printf("%s: load %zu, run %zu, page %zu, publish %zu, total %zu, suggest %zu\n", name, bytes[LOAD], bytes[RUN], bytes[PAGE],
        bytes[PUBLISH], bytes[TOTAL], bytes[SUGGEST]);
}

static size_t good(Call call, size_t graph) {
    return used(call, WILLETCOFFER_PAGE_REPORT_WIDTH, graph, 0);
}

/* Each graph has a page of as many records as fit, until the store is full: the most that one of them used. */
static size_t fill_store(void) {
    size_t fit = WILLETCOFFER_PAGE_LIMIT / (WILLETCOFFER_OBJECT_OFFSET + WILLETCOFFER_TEXT_WIDTH), most = 0, quads = 0;
    for (size_t graph = FIRST_URI; quads < WILLETCOFFER_QUAD_LIMIT; graph++) {
        size_t left = WILLETCOFFER_QUAD_LIMIT - quads, count = left < fit ? left : fit, bytes;
        fill_page(quads, count);
        bytes = good(PAGE, graph);
        most = most < bytes ? bytes : most;
        quads += count;
    }
    return most;
}

static void measure_number(const char *name, const char *written, size_t report_length, uint32_t expected) {
    text = written;
    text_length = strlen(written);
    printf("%s: number %zu\n", name, used(NUMBER, report_length, 0, expected));
}

/* All quads in one graph, as no page call leaves them, put in order anew. */
static void one_graph(void) {
    uint8_t quad[WILLETCOFFER_QUAD_WIDTH];
    for (size_t i = 0; i < WILLETCOFFER_QUAD_LIMIT; i++) {
        uint8_t *at = station.quad_table + i * WILLETCOFFER_QUAD_WIDTH;
        at[0] = FIRST_URI;
        at[1] = 0;
    }
    for (size_t i = 1; i < WILLETCOFFER_QUAD_LIMIT; i++) {
        size_t to = i;
        memcpy(quad, station.quad_table + i * WILLETCOFFER_QUAD_WIDTH, sizeof quad);
        while (to > 0 && comes_before(quad, station.quad_table + (to - 1) * WILLETCOFFER_QUAD_WIDTH)) to--;
        memmove(station.quad_table + (to + 1) * WILLETCOFFER_QUAD_WIDTH, station.quad_table + to * WILLETCOFFER_QUAD_WIDTH,
            (i - to) * WILLETCOFFER_QUAD_WIDTH);
        memcpy(station.quad_table + to * WILLETCOFFER_QUAD_WIDTH, quad, sizeof quad);
    }
}

static void measure_full(const char *name) {
    size_t bytes[CALLS];
    bytes[TOTAL] = good(TOTAL, 0);
    bytes[SUGGEST] = good(SUGGEST, 0);
    bytes[LOAD] = good(LOAD, 0);
    bytes[PAGE] = fill_store();
    bytes[RUN] = good(RUN, 0);
    one_graph();
    bytes[PUBLISH] = good(PUBLISH, FIRST_URI);
    print_row(name, bytes);
}

int main(void) {
    size_t bytes[CALLS];
    smallest(0);
    for (Call c = LOAD; c < CALLS; c++) bytes[c] = used(c, 0, 0, WILLETCOFFER_REFUSED_LENGTH);
    print_row("refused with 1", bytes);
    for (Call c = LOAD; c < CALLS; c++) {
        smallest(c == PAGE || c == PUBLISH);
        if (c == PAGE || c == PUBLISH) good(LOAD, 0);
        if (c == PUBLISH) good(PAGE, 0);
        bytes[c] = good(c, 0);
    }
    print_row("smallest card", bytes);
    full();
    measure_full("full tables");
    deepest();
    measure_full("deepest found");
    undecided();
    printf("undecided: suggest %zu\n", good(SUGGEST, 0));
    sequences();
    printf("sequences: total %zu\n", good(TOTAL, 0));
    printf("refused with 1: schema %zu\n", used(SCHEMA, 0, 0, WILLETCOFFER_REFUSED_LENGTH));
    printf("a full page: schema %zu\n", good(SCHEMA, 0));
    asking();
    printf("a page that asks: schema %zu\n", good(SCHEMA, 0));
    measure_number("refused with 1", "0", 0, WILLETCOFFER_REFUSED_LENGTH);
    measure_number("a digit", "0", 1, 0);
    measure_number("40 bytes", "-0000000000000000000000000000000.999e+02", 1, 0);
    return 0;
}
