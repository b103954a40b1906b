/*
 * A panel in C: a card is loaded, runs, wants a page, gets it with speeds as their makers print them and a record that is skipped,
 * and runs to its end. Then it publishes what it knows of the yard, and a second station takes that page in.
 *
 *     cc panel.c $(pkg-config --cflags --libs willetcoffer) -o panel && ./panel
 *
 * C99, and C++ too.
 */
#include <stdio.h>
#include <string.h>
#include <willetcoffer.h>

/* ---- records, written one after the other ---- */

/* room for eight of the longest records, a page's with a string */
struct bytes {
    uint8_t at[8 * (WILLETCOFFER_OBJECT_OFFSET + WILLETCOFFER_SLOT_WIDTH)];
    size_t length;
};

static void put(struct bytes *bytes, int byte)
{
    bytes->at[bytes->length++] = (uint8_t)byte;
}

/* a text, filled with zeros */
static void put_text(struct bytes *bytes, const char *text, size_t width)
{
    size_t length = strlen(text), i;
    for (i = 0; i < width; i++)
        put(bytes, i < length ? text[i] : 0);
}

static void put_uri(struct bytes *bytes, const char *text)
{
    put_text(bytes, text, WILLETCOFFER_TEXT_WIDTH);
}

static void put_number(struct bytes *bytes, int64_t number)
{
    int i;
    for (i = 0; i < WILLETCOFFER_NUMBER_WIDTH; i++)
        put(bytes, (int)((uint64_t)number >> 8 * i & 0xff));
}

/* kind 21: a property and the datatype of its objects */
static void put_entry(struct bytes *schema, const char *property, int type)
{
    put(schema, 0x21);
    put_uri(schema, property);
    put(schema, type);
}

/* kinds 81 to 85: subject and property; the object's body is to follow */
static void put_triple(struct bytes *page, int kind, const char *subject, const char *property)
{
    put(page, kind);
    put_uri(page, subject);
    put_uri(page, property);
}

static void put_name(struct bytes *page, const char *subject, const char *tag, const char *name)
{
    put_triple(page, 0x82, subject, "p:name");
    put_text(page, tag, WILLETCOFFER_TAG_WIDTH);
    put_text(page, name, WILLETCOFFER_TEXT_WIDTH);
}

/* a speed as its maker prints it, an integer or a decimal; 0 where the text is no such number */
static int put_speed(struct bytes *page, const char *subject, const char *text)
{
    uint8_t record[WILLETCOFFER_NUMBER_RECORD_WIDTH];
    uint32_t refusal = willetcoffer_number((const uint8_t *)text, strlen(text), record, sizeof record);
    size_t i;
    if (refusal != 0) {
        printf("number %s: refused %u\n", text, (unsigned)refusal);
        return 0;
    }
    put_triple(page, 0x70 + record[0], subject, "p:speed");
    for (i = 1; i < sizeof record; i++)
        put(page, record[i]);
    return 1;
}

/* ---- the card: from the yard's page, each locomotive with a name and a speed above 60 ---- */

static const uint8_t script[] = {
    0x72, 0x32, 0, 0,                             /* from named term 0, the yard */
    0x73, 1, 3, 0, 0, 1, 0, 2, 0, 0, 0,           /* each: variables 0, 1 and 2, their types open */
    0x62, 0x62,                                   /* both of both of */
    0x61, 0x32, 0, 0, 0x31, 0, 0x32, 2, 0, 0x31, 1, /* in the yard, $0 p:name $1 (terms 2 and 3: the schema's URIs) */
    0x61, 0x32, 0, 0, 0x31, 0, 0x32, 3, 0, 0x31, 2, /* in the yard, $0 p:speed $2 */
    0x64, 0x58, 0x32, 1, 0, 0x31, 2,              /* and 60, which is term 1, less than $2 */
    0x71                                          /* success */
};

static struct bytes terms, schema;

static void write_card(void)
{
    put(&terms, 0x11);
    put_uri(&terms, "http://club.example/yard");
    put(&terms, 0x13);
    put_number(&terms, 60);
    put_entry(&schema, "p:name", WILLETCOFFER_TYPE_STRING);
    put_entry(&schema, "p:speed", WILLETCOFFER_TYPE_DECIMAL);
}

/* ---- what is lent ---- */

static uint8_t term_table[WILLETCOFFER_TERM_TABLE_WIDTH];
static uint8_t quad_table[WILLETCOFFER_QUAD_TABLE_WIDTH];
static uint8_t saved[WILLETCOFFER_SAVED_WIDTH];
static uint8_t run_report[WILLETCOFFER_RUN_REPORT_WIDTH];
static uint8_t page_report[WILLETCOFFER_PAGE_REPORT_WIDTH];

/* a number of so many bytes */
static uint32_t number(const uint8_t *bytes, int width)
{
    uint32_t sum = 0;
    int i;
    for (i = 0; i < width; i++)
        sum |= (uint32_t)bytes[i] << 8 * i;
    return sum;
}

/* the text of a URI (kind 11) or a string (kind 12, a tag before its text) in the term table */
static void print_text(uint32_t term)
{
    const uint8_t *slot = term_table + term * WILLETCOFFER_SLOT_WIDTH;
    const uint8_t *text = slot + 1 + (slot[0] == 0x12 ? WILLETCOFFER_TAG_WIDTH : 0);
    printf("%.*s\n", WILLETCOFFER_TEXT_WIDTH, (const char *)text);
}

static int load(void)
{
    uint32_t refusal = willetcoffer_load(
        willetcoffer_built_in_ranks, WILLETCOFFER_RANKS_WIDTH,
        terms.at, terms.length, schema.at, schema.length, script, sizeof script,
        term_table, sizeof term_table, quad_table, sizeof quad_table, saved, sizeof saved);
    int variable;
    if (refusal != 0) {
        printf("load: refused %u\n", (unsigned)refusal);
        return 0;
    }
    printf("load: accepted\n");
    for (variable = 0; variable < 3; variable++)
        printf("  $%d has the type of code %d\n", variable, saved[WILLETCOFFER_TYPES_OFFSET + variable]);
    return 1;
}

/* runs step by step, so that each answer is seen, until the script stands still */
static int run(int64_t now)
{
    static const char *const states[] = {"ended", "wanted", "waiting", "spent"};
    uint32_t steps = 0, last = WILLETCOFFER_TERM_LIMIT;
    int state;
    do {
        uint32_t refusal = willetcoffer_run(
            willetcoffer_built_in_ranks, WILLETCOFFER_RANKS_WIDTH,
            terms.at, terms.length, schema.at, schema.length, script, sizeof script,
            term_table, sizeof term_table, quad_table, sizeof quad_table, saved, sizeof saved,
            1, now, run_report, sizeof run_report);
        if (refusal != 0) {
            printf("run: refused %u\n", (unsigned)refusal);
            return 0;
        }
        steps += number(run_report, 4);
        state = run_report[4];
        if (saved[WILLETCOFFER_BOUND_OFFSET + 1] == 1 && number(saved + WILLETCOFFER_BINDINGS_OFFSET + 2, 2) != last) {
            last = number(saved + WILLETCOFFER_BINDINGS_OFFSET + 2, 2);
            printf("  roster: ");
            print_text(last);
        }
    } while (state == WILLETCOFFER_STATE_SPENT);
    printf("run: %u steps, %s\n", (unsigned)steps, states[state]);
    if (state == WILLETCOFFER_STATE_WANTED) {
        printf("  graph: ");
        print_text(number(run_report + 6, 2));
    }
    return 1;
}

static int take_page(const struct bytes *page)
{
    uint32_t refusal = willetcoffer_page(
        willetcoffer_built_in_ranks, WILLETCOFFER_RANKS_WIDTH,
        terms.at, terms.length, schema.at, schema.length, script, sizeof script,
        term_table, sizeof term_table, quad_table, sizeof quad_table, saved, sizeof saved,
        number(run_report + 6, 2), page->at, page->length, page_report, sizeof page_report);
    if (refusal != 0) {
        printf("page: refused %u\n", (unsigned)refusal);
        return 0;
    }
    printf("page: %u skipped, %u quads stored\n", (unsigned)number(page_report, 4), (unsigned)number(saved + 2, 2));
    return 1;
}

/* ---- what the station knows of the yard, for others ---- */

/* a station: its card's terms, and its tables */
struct station {
    const struct bytes *terms;
    uint8_t *term_table, *quad_table, *saved;
    uint32_t yard; /* the number of its graph */
};

static uint8_t publish_report[WILLETCOFFER_PUBLISH_REPORT_WIDTH];

/* writes the yard's graph as a page; 0 where that is refused */
static int publish(const struct station *station, const uint8_t *its_script, size_t script_length, struct bytes *page)
{
    uint32_t refusal = willetcoffer_publish(
        station->terms->at, station->terms->length, schema.at, schema.length, its_script, script_length,
        station->term_table, WILLETCOFFER_TERM_TABLE_WIDTH, station->quad_table, WILLETCOFFER_QUAD_TABLE_WIDTH,
        station->saved, WILLETCOFFER_SAVED_WIDTH, station->yard, page->at, sizeof page->at, publish_report, sizeof publish_report);
    if (refusal != 0) {
        printf("publish: refused %u\n", (unsigned)refusal);
        return 0;
    }
    page->length = number(publish_report, 4);
    return 1;
}

/* a second station, whose card has nothing but 60 and the yard, takes the page in, and has the same to publish */
static int second_station(void)
{
    static const uint8_t success[] = { 0x71 };
    static uint8_t its_terms[WILLETCOFFER_TERM_TABLE_WIDTH], its_quads[WILLETCOFFER_QUAD_TABLE_WIDTH], its_saved[WILLETCOFFER_SAVED_WIDTH];
    static struct bytes listed, page, again;
    const struct station first = { &terms, term_table, quad_table, saved, 0 };
    const struct station second = { &listed, its_terms, its_quads, its_saved, 1 };
    if (!publish(&first, script, sizeof script, &page))
        return 0;
    printf("publish: %u bytes\n", (unsigned)page.length);
    put(&listed, 0x13);
    put_number(&listed, 60);
    put(&listed, 0x11);
    put_uri(&listed, "http://club.example/yard");
    if (willetcoffer_load(
            willetcoffer_built_in_ranks, WILLETCOFFER_RANKS_WIDTH,
            listed.at, listed.length, schema.at, schema.length, success, sizeof success,
            its_terms, sizeof its_terms, its_quads, sizeof its_quads, its_saved, sizeof its_saved) != 0)
        return 0;
    if (willetcoffer_page(
            willetcoffer_built_in_ranks, WILLETCOFFER_RANKS_WIDTH,
            listed.at, listed.length, schema.at, schema.length, success, sizeof success,
            its_terms, sizeof its_terms, its_quads, sizeof its_quads, its_saved, sizeof its_saved,
            second.yard, page.at, page.length, page_report, sizeof page_report) != 0)
        return 0;
    printf("second station: %u skipped, %u quads stored\n", (unsigned)number(page_report, 4), (unsigned)number(its_saved + 2, 2));
    if (!publish(&second, success, sizeof success, &again))
        return 0;
    printf("second station: %s\n", page.length == again.length && memcmp(page.at, again.at, page.length) == 0
        ? "publishes the same bytes" : "publishes other bytes");
    return 1;
}

static int write_page(struct bytes *page)
{
    put_name(page, "u:1", "en", "Mallard");
    put_name(page, "u:2", "en", "Puffing Billy");
    put_name(page, "u:3", "de", "Adler");
    put_triple(page, 0x83, "u:3", "p:wheels"); /* no such property in the schema: skipped */
    put_number(page, 6);
    return put_speed(page, "u:1", "126.4") && put_speed(page, "u:2", "8") && put_speed(page, "u:3", "0.65e2");
}

int main(void)
{
    static struct bytes page;
    write_card();
    return write_page(&page) && load() && run(0) && take_page(&page) && run(0) && second_station() ? 0 : 1;
}
