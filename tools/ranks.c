/*
 * The ranks of the C interface, tried from C: the built-in ones are each rank once, in document 01's order; load, run and page refuse
 * other lengths with 1 and lists that are none with 21; and less on strings goes by what is lent. Prints what does not hold.
 *
 * C99, and C++ too. tools/c_example.sh compiles and runs it.
 */
#include <stdio.h>
#include <string.h>
#include <willetcoffer.h>

#define RANKS WILLETCOFFER_RANKS_WIDTH

static int failures;

static void expect(int holds, const char *what)
{
    if (!holds) {
        printf("ranks.c: %s\n", what);
        failures++;
    }
}

/* once, where term 0 is less than term 1, success */
static const uint8_t script[] = {
    0x73, 0, 0, 0, 0, 0, 0, 0, 0, 0, 0, 0x64, 0x58, 0x32, 0, 0, 0x32, 1, 0, 0x71
};

static uint8_t terms[2 * WILLETCOFFER_SLOT_WIDTH];
static uint8_t term_table[WILLETCOFFER_TERM_TABLE_WIDTH];
static uint8_t quad_table[WILLETCOFFER_QUAD_TABLE_WIDTH];
static uint8_t saved[WILLETCOFFER_SAVED_WIDTH];
static uint8_t run_report[WILLETCOFFER_RUN_REPORT_WIDTH];
static uint8_t page_report[WILLETCOFFER_PAGE_REPORT_WIDTH];

/* the record of a string, which fills its slot */
static void write_string(int term, const char *tag, const char *text)
{
    uint8_t *slot = terms + term * WILLETCOFFER_SLOT_WIDTH;
    memset(slot, 0, WILLETCOFFER_SLOT_WIDTH);
    slot[0] = 0x12;
    memcpy(slot + 1, tag, strlen(tag));
    memcpy(slot + 1 + WILLETCOFFER_TAG_WIDTH, text, strlen(text));
}

static uint32_t load(const uint8_t *ranks, size_t length)
{
    return willetcoffer_load(
        ranks, length, terms, sizeof terms, terms, 0, script, sizeof script,
        term_table, sizeof term_table, quad_table, sizeof quad_table, saved, sizeof saved);
}

static uint32_t run(const uint8_t *ranks, size_t length)
{
    return willetcoffer_run(
        ranks, length, terms, sizeof terms, terms, 0, script, sizeof script,
        term_table, sizeof term_table, quad_table, sizeof quad_table, saved, sizeof saved,
        9, 0, run_report, sizeof run_report);
}

/* a page for term 0, which is no URI: 12 at the least */
static uint32_t page(const uint8_t *ranks, size_t length)
{
    return willetcoffer_page(
        ranks, length, terms, sizeof terms, terms, 0, script, sizeof script,
        term_table, sizeof term_table, quad_table, sizeof quad_table, saved, sizeof saved,
        0, terms, 0, page_report, sizeof page_report);
}

/* whether a string is less than another by these ranks */
static int less(const uint8_t *ranks, const char *tag_a, const char *a, const char *tag_b, const char *b)
{
    write_string(0, tag_a, a);
    write_string(1, tag_b, b);
    expect(load(ranks, RANKS) == 0, "good ranks load");
    expect(run(ranks, RANKS) == 0, "good ranks run");
    expect(page(ranks, RANKS) == WILLETCOFFER_REFUSED_PAGE_GRAPH, "good ranks in a page call");
    return run_report[4] == WILLETCOFFER_STATE_ENDED;
}

static void built_in(void)
{
    static const char order[] =
        " 0123456789AaBbCcDdEeFfGgHhIiJjKkLlMmNnOoPpQqRrSsTtUuVvWwXxYyZz!\"#$%&'()*+,-./:;<=>?@[\\]^_`{|}~";
    int seen[RANKS] = {0}, place;
    expect(sizeof willetcoffer_built_in_ranks == RANKS && sizeof order == RANKS + 1, "95 ranks");
    for (place = 0; place < RANKS; place++) {
        expect(willetcoffer_built_in_ranks[place] < RANKS, "ranks from 0 to 94");
        seen[willetcoffer_built_in_ranks[place]]++;
        expect(willetcoffer_built_in_ranks[order[place] - 0x20] == place, "the order of document 01");
    }
    for (place = 0; place < RANKS; place++)
        expect(seen[place] == 1, "each rank once");
}

static void refusals(void)
{
    uint8_t ranks[RANKS + 1];
    static const uint8_t wrong[] = {95, 96, 127, 128, 255};
    size_t place;
    memcpy(ranks, willetcoffer_built_in_ranks, RANKS);
    ranks[RANKS] = 95;
    write_string(0, "", "a");
    write_string(1, "", "b");
    expect(load(ranks, RANKS) == 0, "the built-in ranks load");
    expect(load(ranks, RANKS - 1) == 1 && run(ranks, RANKS - 1) == 1 && page(ranks, RANKS - 1) == 1, "94 ranks are 1");
    expect(load(ranks, RANKS + 1) == 1 && run(ranks, RANKS + 1) == 1 && page(ranks, RANKS + 1) == 1, "96 ranks are 1");
    for (place = 0; place < sizeof wrong; place++) {
        ranks[place] = wrong[place];
        expect(load(ranks, RANKS) == WILLETCOFFER_REFUSED_RANKS, "a rank past 94 in a load");
        expect(run(ranks, RANKS) == WILLETCOFFER_REFUSED_RANKS, "a rank past 94 in a run");
        expect(page(ranks, RANKS) == WILLETCOFFER_REFUSED_RANKS, "a rank past 94 in a page call");
        ranks[place] = ranks[place + 1];
        expect(load(ranks, RANKS) == WILLETCOFFER_REFUSED_RANKS, "a rank twice in a load");
        expect(run(ranks, RANKS) == WILLETCOFFER_REFUSED_RANKS, "a rank twice in a run");
        expect(page(ranks, RANKS) == WILLETCOFFER_REFUSED_RANKS, "a rank twice in a page call");
        ranks[place] = willetcoffer_built_in_ranks[place];
    }
    /* 21 before 2, and 1 before 21 */
    ranks[0] = ranks[1];
    terms[0] = 0x16;
    expect(load(ranks, RANKS) == WILLETCOFFER_REFUSED_RANKS, "21 before 2");
    expect(load(ranks, RANKS - 1) == WILLETCOFFER_REFUSED_LENGTH, "1 before 21");
}

static void orders(void)
{
    uint8_t by_byte[RANKS], turned[RANKS];
    int place;
    for (place = 0; place < RANKS; place++) {
        by_byte[place] = (uint8_t)place;
        turned[place] = (uint8_t)(RANKS - 1 - willetcoffer_built_in_ranks[place]);
    }
    expect(less(willetcoffer_built_in_ranks, "", "a", "", "B"), "a before B by the built-in ranks");
    expect(!less(willetcoffer_built_in_ranks, "", "B", "", "a"), "B not before a by the built-in ranks");
    expect(less(willetcoffer_built_in_ranks, "eng", "a", "en-gb", "a"), "tags by the built-in ranks");
    expect(less(by_byte, "", "B", "", "a") && !less(by_byte, "", "a", "", "B"), "B before a by byte");
    expect(less(by_byte, "en-gb", "a", "eng", "a"), "tags by byte");
    expect(less(turned, "", "b", "", "a") && !less(turned, "", "a", "", "b"), "b before a, turned round");
    expect(less(turned, "", "a", "", "ab") && less(turned, "", "a", "en", "a"), "the end first, turned round");
    expect(less(turned, "fr", "a", "en", "a"), "tags, turned round");
}

int main(void)
{
    built_in();
    refusals();
    orders();
    return failures != 0;
}
