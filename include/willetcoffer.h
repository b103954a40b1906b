/*
 * willetcoffer.h: the C interface of Willetcoffer, the proved engine for page scripts.
 *
 * A card holds terms, a schema and a script. The host lends a term table, a quad table and a saved run, loads the card, runs
 * it with a budget of steps, fetches the page of a graph that is wanted, hands it in, and runs on:
 *
 *     willetcoffer_load(..)      once for a card
 *     willetcoffer_run(..)       until the report says wanted, waiting or ended
 *     willetcoffer_page(..)      for a wanted graph, and whenever a page has changed
 *     willetcoffer_publish(..)   whenever what the station knows of a graph is to be put up as a page
 *     willetcoffer_total(..)     whenever a display wants to know how long the script takes
 *     willetcoffer_suggest(..)   where a load was refused with 9, for one written type that would do
 *     willetcoffer_number(..)    for a number as its maker prints it, on the way to a term or a page record
 *     willetcoffer_schema(..)    for a schema out of a page that tells the ranges of properties, on the way to a card
 *
 * Load, run and page are lent ranks too, the order in which a club sorts its texts; a club that has none of its own lends
 * willetcoffer_built_in_ranks.
 *
 * For C99 and C++. Link with -lwilletcoffer (pkg-config --cflags --libs willetcoffer). A test compares the numbers and the
 * declarations of this file with the definitions that the engine is proved to meet.
 *
 * WHAT HOLDS FOR EVERY CALL
 *
 * - It returns 0, or the number of its refusal (below). On a refusal every lent buffer keeps its bytes.
 * - A buffer passes as a pointer and its length in bytes. No pointer may be null, not even one with length 0. A buffer that is
 *   written (no const) may overlap no other buffer of the call.
 * - It reads and writes within these lengths, ends, allocates nothing, keeps nothing between calls and calls nothing but memcpy
 *   and memset; so calls on different buffers may run at the same time.
 * - Every number in a buffer is little endian, signed ones in two's complement; a buffer needs no alignment.
 * - Terms go by their number, from 0: those listed on the card in their order, then the schema's URIs that are not among them,
 *   in schema order, then those that pages bring.
 */
#ifndef WILLETCOFFER_H
#define WILLETCOFFER_H

#include <stddef.h>
#include <stdint.h>

#ifdef __cplusplus
extern "C" {
#endif

/* ---- lengths of lent buffers: another length meets refusal 1 ---------------------------------------------------------- */

/* The term table: WILLETCOFFER_TERM_LIMIT slots of WILLETCOFFER_SLOT_WIDTH bytes. A slot holds a term's record and zeros; a free
   one is all zeros. */
#define WILLETCOFFER_TERM_TABLE_WIDTH 53760
/* The quad table: WILLETCOFFER_QUAD_LIMIT quads, each four term numbers of 2 bytes: graph, subject, property, object. Those in
   use stand first (the saved run counts them), each once, rising by graph, then subject, property and object number; zeros after.
   So the same terms by number and the same quads are always the same bytes. */
#define WILLETCOFFER_QUAD_TABLE_WIDTH 4096
/* The ranks of bytes in texts; see RANKS. */
#define WILLETCOFFER_RANKS_WIDTH 95
/* The saved run; see THE SAVED RUN. */
#define WILLETCOFFER_SAVED_WIDTH 486
/* The report of a run call; see willetcoffer_run. */
#define WILLETCOFFER_RUN_REPORT_WIDTH 8
/* The report of a page call; see willetcoffer_page. */
#define WILLETCOFFER_PAGE_REPORT_WIDTH 4
/* The report of a total call; see willetcoffer_total. */
#define WILLETCOFFER_TOTAL_REPORT_WIDTH 4
/* The report of a suggest call; see willetcoffer_suggest. */
#define WILLETCOFFER_SUGGEST_REPORT_WIDTH 4
/* The report of a publish call; see willetcoffer_publish. The buffer of its page may have any length. */
#define WILLETCOFFER_PUBLISH_REPORT_WIDTH 4
/* The record that a number call writes; see willetcoffer_number. */
#define WILLETCOFFER_NUMBER_RECORD_WIDTH 9
/* The buffer whose front a schema call fills: a schema of WILLETCOFFER_ENTRY_LIMIT entries; see willetcoffer_schema. */
#define WILLETCOFFER_SCHEMA_WIDTH 12544
/* The report of a schema call; see willetcoffer_schema. */
#define WILLETCOFFER_SCHEMA_REPORT_WIDTH 8

/* ---- widths of fields, in bytes ------------------------------------------------------------------------------------------ */

#define WILLETCOFFER_TEXT_WIDTH 96           /* a URI's text, a string's text, filled with zeros */
#define WILLETCOFFER_TAG_WIDTH 8             /* a string's language tag, filled with zeros */
#define WILLETCOFFER_NUMBER_WIDTH 8          /* an integer, a decimal (in millionths), a dateTime (seconds from 1970) */
#define WILLETCOFFER_PATTERN_WIDTH 16        /* a pattern, filled with zeros */
#define WILLETCOFFER_LANGUAGE_RANGE_WIDTH 8  /* a language range, filled with zeros */
#define WILLETCOFFER_BLOCK_WIDTH 10          /* a block's head after its kind: mode, count, four pairs */
#define WILLETCOFFER_SLOT_WIDTH 105          /* a slot of the term table: the longest term record, a string's */
#define WILLETCOFFER_URI_WIDTH 97            /* a URI's record: kind and text */
#define WILLETCOFFER_ENTRY_WIDTH 98          /* a schema record: kind, URI and datatype */
#define WILLETCOFFER_QUAD_WIDTH 8            /* a quad */

/* ---- where parts of a record begin, counted from its kind ---------------------------------------------------------------- */

#define WILLETCOFFER_PROPERTY_OFFSET 97           /* a page record's property, after its subject */
#define WILLETCOFFER_OBJECT_OFFSET 193            /* a page record's object */
#define WILLETCOFFER_COUNT_OFFSET 2               /* a block's count of variables, after its mode */
#define WILLETCOFFER_PAIRS_OFFSET 3               /* a block's pairs */
#define WILLETCOFFER_QUERY_OFFSET 11              /* a block's query */
#define WILLETCOFFER_REGEX_TEXT_OFFSET 17         /* a regex's expression, after its pattern */
#define WILLETCOFFER_LANG_MATCHES_TEXT_OFFSET 9   /* a langMatches' expression, after its range */

/* ---- limits -------------------------------------------------------------------------------------------------------------- */

#define WILLETCOFFER_TERM_LIMIT 512          /* terms in use */
#define WILLETCOFFER_QUAD_LIMIT 512          /* stored quads */
#define WILLETCOFFER_GRAPH_LIMIT 64          /* fetched graphs */
#define WILLETCOFFER_ENTRY_LIMIT 128         /* schema entries */
#define WILLETCOFFER_SCRIPT_LIMIT 2048       /* bytes of a script */
#define WILLETCOFFER_DEPTH_LIMIT 24          /* depth of a script's records, the root at 1; items of the stack */
#define WILLETCOFFER_VARIABLE_LIMIT 16       /* variables of a script, numbered from 0 */
#define WILLETCOFFER_PAIR_LIMIT 4            /* variables of one block */
#define WILLETCOFFER_BUDGET_LIMIT 60000      /* steps of one run call */
#define WILLETCOFFER_PAGE_LIMIT 65536        /* bytes of a page */
#define WILLETCOFFER_PRINTER_LIMIT 68352     /* bytes of a card's three parts together, as the type printer reads them */
#define WILLETCOFFER_NUMBER_TEXT_LIMIT 40    /* bytes of a number's text */
#define WILLETCOFFER_INTEGER_LIMIT 1000000000000LL        /* an integer's amount */
#define WILLETCOFFER_DECIMAL_LIMIT 1000000000000000000LL  /* a decimal's amount, in millionths */
#define WILLETCOFFER_SECONDS_BEFORE 62135596800LL         /* the first dateTime, 0001-01-01T00:00:00Z, before 1970 */
#define WILLETCOFFER_SECONDS_AFTER 253402300799LL         /* the last dateTime, 9999-12-31T23:59:59Z, after 1970 */

/* ---- RANKS -----------------------------------------------------------------------------------------------------------------
 *
 * The order of strings is the club's own: a rank for each byte from 20 to 7E (hexadecimal), in the order of the bytes. Each rank
 * from 0 to 94 stands once, else refusal 21. Less on strings goes by text, then by tag, both byte by byte by rank, the shorter
 * first where one begins the other. Nothing else goes by ranks: not equal, not less on URIs, numbers or dateTimes, not the
 * numbers of terms nor the order of quads.
 *
 * A host lends the same ranks to all calls on a card, from its load on. The saved run does not hold them: a call that is lent other
 * good ones takes them, and goes by those.
 */

/* The ranks to lend where a club has none of its own: the blank, the digits, the letters as A a B b to Z z, then the other bytes in
   their order. */
static const uint8_t willetcoffer_built_in_ranks[WILLETCOFFER_RANKS_WIDTH] = {
     0, 63, 64, 65, 66, 67, 68, 69, 70, 71, 72, 73, 74, 75, 76, 77,  /* 20 to 2F */
     1,  2,  3,  4,  5,  6,  7,  8,  9, 10, 78, 79, 80, 81, 82, 83,  /* 30 to 3F */
    84, 11, 13, 15, 17, 19, 21, 23, 25, 27, 29, 31, 33, 35, 37, 39,  /* 40 to 4F */
    41, 43, 45, 47, 49, 51, 53, 55, 57, 59, 61, 85, 86, 87, 88, 89,  /* 50 to 5F */
    90, 12, 14, 16, 18, 20, 22, 24, 26, 28, 30, 32, 34, 36, 38, 40,  /* 60 to 6F */
    42, 44, 46, 48, 50, 52, 54, 56, 58, 60, 62, 91, 92, 93, 94       /* 70 to 7E */
};

/* ---- THE SAVED RUN -------------------------------------------------------------------------------------------------------
 *
 *     at   bytes  what
 *     0    2      height of the stack; 0 once the script has ended
 *     2    2      quads in use
 *     4    2      fetched graphs
 *     6    16     the reported type of each variable by its code, 0 for a variable that no block binds
 *     22   16     1 for a bound variable, else 0
 *     38   32     the bound variables' term numbers, 2 bytes each
 *     70   128    the fetched graphs' term numbers, 2 bytes each, in the order of their first page
 *     198  288    places for WILLETCOFFER_DEPTH_LIMIT stack items from the bottom, WILLETCOFFER_ITEM_WIDTH bytes each: offset of
 *                 the record in the script (2), 1 if it has a last tuple (1), zero (1), the last tuple: four term numbers (8)
 *
 * What means nothing is zero in every result and is not looked at in what is handed in. A host may store a saved run with its
 * two tables and hand them in later; bytes that hold no sound run are refused with 10.
 */
#define WILLETCOFFER_TYPES_OFFSET 6
#define WILLETCOFFER_BOUND_OFFSET 22
#define WILLETCOFFER_BINDINGS_OFFSET 38
#define WILLETCOFFER_FETCHED_OFFSET 70
#define WILLETCOFFER_ITEMS_OFFSET 198
#define WILLETCOFFER_ITEM_WIDTH 12

/* ---- codes of types: written in a block's pairs (0: open), in a schema entry (1 to 5), reported in the saved run -------- */

#define WILLETCOFFER_TYPE_ANY_URI 1
#define WILLETCOFFER_TYPE_STRING 2
#define WILLETCOFFER_TYPE_DECIMAL 3
#define WILLETCOFFER_TYPE_DATE_TIME 4
#define WILLETCOFFER_TYPE_INTEGER 5
#define WILLETCOFFER_TYPE_RANGE_ANY_URI 9    /* a property whose objects are URIs; and so on */
#define WILLETCOFFER_TYPE_RANGE_STRING 10
#define WILLETCOFFER_TYPE_RANGE_DECIMAL 11
#define WILLETCOFFER_TYPE_RANGE_DATE_TIME 12
#define WILLETCOFFER_TYPE_RANGE_INTEGER 13

/* ---- states of a run, byte 4 of its report -------------------------------------------------------------------------------- */

#define WILLETCOFFER_STATE_ENDED 0           /* the script has ended */
#define WILLETCOFFER_STATE_WANTED 1          /* the page of the reported graph is wanted */
#define WILLETCOFFER_STATE_WAITING 2         /* a once block has no answer yet; a page may bring one */
#define WILLETCOFFER_STATE_SPENT 3           /* as many steps as the budget, and the script can go on */

/* ---- what a suggest call says, byte 0 of its report ------------------------------------------------------------------------- */

#define WILLETCOFFER_SUGGESTION_ACCEPTED 0   /* the script is accepted as it is */
#define WILLETCOFFER_SUGGESTION_WRITTEN 1    /* the reported type, written at the reported variable, would do */
#define WILLETCOFFER_SUGGESTION_NONE 2       /* no single written type would do */

/* ---- refusals ------------------------------------------------------------------------------------------------------------- */

#define WILLETCOFFER_REFUSED_LENGTH 1          /* lent ranks, a lent table, schema to be written, saved run,
                                                  report or record of another length */
#define WILLETCOFFER_REFUSED_TERM_RECORD 2     /* a bad term record */
#define WILLETCOFFER_REFUSED_TERM_TWICE 3      /* a term listed twice */
#define WILLETCOFFER_REFUSED_SCHEMA_RECORD 4   /* a bad schema record */
#define WILLETCOFFER_REFUSED_PROPERTY_TWICE 5  /* a property twice in the schema */
#define WILLETCOFFER_REFUSED_SCRIPT 6          /* script malformed: kind, place, written type, bad pattern or range, term
                                                  number, bytes left over, depth; or a limit passed on terms, entries or
                                                  script bytes */
#define WILLETCOFFER_REFUSED_SCOPE 7           /* a variable unbound at its use, or bound by two pairs */
#define WILLETCOFFER_REFUSED_NO_TYPING 8       /* no typing */
#define WILLETCOFFER_REFUSED_NO_GREATEST 9     /* typings, none above the rest */
#define WILLETCOFFER_REFUSED_UNSOUND 10        /* saved run or tables unsound, or not of this card */
#define WILLETCOFFER_REFUSED_RUN_CALL 11       /* budget over WILLETCOFFER_BUDGET_LIMIT, or now no dateTime */
#define WILLETCOFFER_REFUSED_PAGE_GRAPH 12     /* the page's graph is no URI of the term table */
#define WILLETCOFFER_REFUSED_PAGE 13           /* page over WILLETCOFFER_PAGE_LIMIT bytes, or a bad record in it */
#define WILLETCOFFER_REFUSED_ROOM 14           /* terms, quads or graphs would pass their limits */
#define WILLETCOFFER_REFUSED_NUMBER_TEXT 16    /* a text that has not the form or the length of a number's */
#define WILLETCOFFER_REFUSED_NUMBER_VALUE 17   /* a number outside the limits of its kind, or no whole count of millionths */
#define WILLETCOFFER_REFUSED_TOO_MANY_ENTRIES 19 /* more than WILLETCOFFER_ENTRY_LIMIT subjects of a page would get an entry */
#define WILLETCOFFER_REFUSED_RANKS 21          /* ranks that are not each rank from 0 to 94 once; straight after 1 */
#define WILLETCOFFER_REFUSED_NOT_FETCHED 22    /* the graph is not among the fetched ones */
#define WILLETCOFFER_REFUSED_SHORT_BUFFER 23   /* the lent buffer is shorter than the page */

/* ---- the calls ------------------------------------------------------------------------------------------------------------ */

/*
 * Loads a card.
 *
 *   ranks       the club's ranks, or willetcoffer_built_in_ranks
 *   terms       the listed terms' records (kinds 11 to 15), any length
 *   schema      the schema's records (kind 21), any length
 *   script      the script's records (kinds 31 to 74) in prefix order, any length
 *   term_table  written: the numbered terms, free slots zero
 *   quad_table  written: zeros
 *   saved       written: the script's root alone on the stack, nothing bound or fetched, the reported types
 *
 * Refusals: 1, 21, 2 to 9, in this order. What the buffers written held before means nothing.
 */
uint32_t willetcoffer_load(
    const uint8_t *ranks, size_t ranks_length,
    const uint8_t *terms, size_t terms_length,
    const uint8_t *schema, size_t schema_length,
    const uint8_t *script, size_t script_length,
    uint8_t *term_table, size_t term_table_length,
    uint8_t *quad_table, size_t quad_table_length,
    uint8_t *saved, size_t saved_length);

/*
 * Takes steps, as many as the budget has, or until a page is wanted, a block waits or the script has ended.
 *
 *   ranks       those lent at the load
 *   terms, schema, script       the card that was loaded
 *   term_table, quad_table      read: as the last call left them
 *   saved       read and written: as the last call left it
 *   budget      steps to take, at most WILLETCOFFER_BUDGET_LIMIT; 0 asks for the state alone
 *   now         the value of now, in seconds from 1970-01-01T00:00:00Z
 *   report      written:
 *                 at 0, 4 bytes  steps taken
 *                 at 4, 1 byte   state, WILLETCOFFER_STATE_*
 *                 at 5, 1 byte   zero
 *                 at 6, 2 bytes  the wanted graph's term number, else zero
 *
 * Refusals: 1, 21, 10, 11, in this order.
 */
uint32_t willetcoffer_run(
    const uint8_t *ranks, size_t ranks_length,
    const uint8_t *terms, size_t terms_length,
    const uint8_t *schema, size_t schema_length,
    const uint8_t *script, size_t script_length,
    const uint8_t *term_table, size_t term_table_length,
    const uint8_t *quad_table, size_t quad_table_length,
    uint8_t *saved, size_t saved_length,
    uint64_t budget,
    int64_t now,
    uint8_t *report, size_t report_length);

/*
 * Takes in a graph's page: its triples become that graph's quads, each once, and replace those it had. A record is skipped where
 * its property has no schema entry or its object has another datatype than the entry asks for.
 *
 *   ranks       those lent at the load
 *   terms, schema, script       the card that was loaded
 *   term_table, quad_table      read and written: as the last call left them
 *   saved       read and written: as the last call left it
 *   graph       the graph's term number
 *   page        the page's records (kinds 81 to 85), at most WILLETCOFFER_PAGE_LIMIT bytes
 *   report      written:
 *                 at 0, 4 bytes  records skipped
 *
 * Refusals: 1, 21, 10, 12, 13, 14, in this order.
 */
uint32_t willetcoffer_page(
    const uint8_t *ranks, size_t ranks_length,
    const uint8_t *terms, size_t terms_length,
    const uint8_t *schema, size_t schema_length,
    const uint8_t *script, size_t script_length,
    uint8_t *term_table, size_t term_table_length,
    uint8_t *quad_table, size_t quad_table_length,
    uint8_t *saved, size_t saved_length,
    uint64_t graph,
    const uint8_t *page, size_t page_length,
    uint8_t *report, size_t report_length);

/*
 * Writes a fetched graph as a page: its triples as records in rising order of their bytes, each once. The order is that of the bytes one
 * after the other, from 0 to 255: by kind, then subject, property and object, so that a number goes by its bytes from the lowest on and
 * not by its amount. Two stations that hold the same triples of a graph write the same bytes, however their terms are numbered.
 *
 * A page call for the same graph takes that page in, if it has at most WILLETCOFFER_PAGE_LIMIT bytes, skips nothing of it and leaves the
 * store as it was. A graph that a page call has filled fits into as many bytes as that page had. Any graph fits where each of its quads
 * has room for the longest record, WILLETCOFFER_OBJECT_OFFSET + WILLETCOFFER_SLOT_WIDTH - 1 bytes.
 *
 *   terms, schema, script       the card that was loaded
 *   term_table, quad_table      read: as the last call left them
 *   saved       read: as the last call left it
 *   graph       the graph's term number
 *   page        written, any length: the page, at the front; the bytes after it stay as they are
 *   report      written:
 *                 at 0, 4 bytes  the page's length
 *
 * Refusals: 1, 10, 22, 23, in this order. No ranks are lent.
 */
uint32_t willetcoffer_publish(
    const uint8_t *terms, size_t terms_length,
    const uint8_t *schema, size_t schema_length,
    const uint8_t *script, size_t script_length,
    const uint8_t *term_table, size_t term_table_length,
    const uint8_t *quad_table, size_t quad_table_length,
    const uint8_t *saved, size_t saved_length,
    uint64_t graph,
    uint8_t *page, size_t page_length,
    uint8_t *report, size_t report_length);

/*
 * Tells how many steps a script takes in all, so that a display can show a bar. The steps that run calls report, counted from the
 * load, are never more, and the script has ended exactly when they are as many; pages, waits and the cutting into calls don't
 * alter the total. A script with an each block has no such total.
 *
 *   terms, schema, script       the card
 *   report      written:
 *                 at 0, 4 bytes  the script's records of kinds 71 to 74; 0 where it has an each block
 *
 * Refusals: 1 to 7, in this order. Types are not asked, so it answers for a card that a load refuses with 8 or 9 too.
 */
uint32_t willetcoffer_total(
    const uint8_t *terms, size_t terms_length,
    const uint8_t *schema, size_t schema_length,
    const uint8_t *script, size_t script_length,
    uint8_t *report, size_t report_length);

/*
 * Names the single written type that would do for a script that a load refuses with 9. A variable is open where a pair binds it with
 * written type 0. Named is the lowest open variable for which there is such a type, and for it the lowest code: that code in the place
 * of the pair's 0, with nothing else changed, lets the card load, and no lower variable or code does. None is named only where none
 * would do.
 *
 *   terms, schema, script       the card
 *   report      written:
 *                 at 0, 1 byte   WILLETCOFFER_SUGGESTION_*
 *                 at 1, 1 byte   the variable, else zero
 *                 at 2, 1 byte   the type's code, WILLETCOFFER_TYPE_*, else zero
 *                 at 3, 1 byte   zero
 *
 * Refusals: 1 to 8, in this order. A card that a load refuses with 9 gets its answer here, and so does one that loads.
 */
uint32_t willetcoffer_suggest(
    const uint8_t *terms, size_t terms_length,
    const uint8_t *schema, size_t schema_length,
    const uint8_t *script, size_t script_length,
    uint8_t *report, size_t report_length);

/*
 * Reads a number as makers print it, such as -3, 126.4 or 0.999e2. Its text is an optional sign, digits, optionally a point with
 * digits after it, optionally e or E with an optional sign and one or two digits, and nothing else, no blank either. With neither
 * point nor exponent it is an integer, otherwise a decimal. The value is exact: 0.999e2 is 99900000 millionths, and 1e-7 has no
 * reading. Minus zero is zero. The text that str gives for a term that was read reads as the same term.
 *
 *   text        1 to WILLETCOFFER_NUMBER_TEXT_LIMIT bytes, else refusal 16; it needs no zero at its end
 *   record      written, WILLETCOFFER_NUMBER_RECORD_WIDTH bytes: the term's record
 *                 at 0, 1 byte   its kind, 13 for an integer, 14 for a decimal (hexadecimal)
 *                 at 1, 8 bytes  the integer, or the decimal's count of millionths
 *
 * The record may stand among the terms of a card. The body after its kind may stand as the object of a page record, whose kind is 70
 * (hexadecimal) more than the record's.
 *
 * Refusals: 1, 16, 17, in this order.
 */
uint32_t willetcoffer_number(
    const uint8_t *text, size_t text_length,
    uint8_t *record, size_t record_length);

/*
 * Gathers a schema from a page. Only records whose object is a URI (kind 81, hexadecimal) ask something of their subject:
 *
 *   property rdfs:range, object xsd:anyURI, xsd:string, xsd:decimal, xsd:dateTime or xsd:integer    at least that datatype
 *   property rdfs:range, another object                                                             anyURI
 *   property rdf:type, object owl:ObjectProperty                                                    anyURI
 *
 * These are the texts as the records have them, compared whole and by case. Each subject of which something is asked gets the least
 * datatype that meets all of it: integer alone gives integer, integer together with decimal gives decimal. Where none meets all, as
 * for integer and string, the subject is left out and counted, once. The page needs no schema for this.
 *
 *   page        the page's records (kinds 81 to 85), at most WILLETCOFFER_PAGE_LIMIT bytes
 *   schema      written, from the front: an entry's record (kind 21) for each subject that is not left out, in the order of their
 *               first asking records; the bytes after the last one keep what they were
 *   report      written:
 *                 at 0, 4 bytes  entries
 *                 at 4, 4 bytes  subjects left out
 *
 * The entries' bytes, WILLETCOFFER_ENTRY_WIDTH for each, may stand as the schema of a card: no load refuses them with 4 or 5.
 *
 * Refusals: 1, 13, 19, in this order. 19 counts entries at the end of the page, not subjects left out.
 */
uint32_t willetcoffer_schema(
    const uint8_t *page, size_t page_length,
    uint8_t *schema, size_t schema_length,
    uint8_t *report, size_t report_length);

#ifdef __cplusplus
}
#endif

#endif
