/* The header's functions on structs, behind functions on slices, for the differential test: each takes what the library's function takes
 * whose name it has, makes the call by structs, and puts what their fields hold where the words belong. Counters, cursors and replies have
 * at least the words that the header names, so they come without a length; a slice of length 0 may come as null. Replies hold junk before
 * the call. The library has no number and no live: these are the header's own. */
#include <string.h>

#include "lemontiller.h"

enum { JUNK = 0x5A };

/* Six patterns, and so a cursor of fifteen words: a header that says otherwise is not compiled. */
typedef char limit_of_patterns[LT_MAX_PATTERNS == 6 && LT_QUERY_CURSOR_WORDS == 15 ? 1 : -1];

/* The longest line of a file: three names of 255 bytes, a blank after each, the dot and LF. */
typedef char longest_line[LT_MAX_LINE == 3 * (255 + 1) + 2 ? 1 : -1];

#define STORE                                                                                             \
    uint32_t *counters, uint32_t *resources, size_t resources_len, uint32_t *statements, size_t statements_len, \
        uint32_t *index, size_t index_len, uint8_t *text, size_t text_len

/* A store over the slices of a call. */
#define STORE_OF_SLICES                                                                                           \
    {                                                                                                             \
        .counters = {.resources = counters[0], .statements = counters[1], .text = counters[2], .reclaims = counters[3]}, \
        .resources = resources, .resources_len = resources_len,                                                   \
        .statements = statements, .statements_len = statements_len,                                               \
        .index = index, .index_len = index_len,                                                                   \
        .text = text, .text_len = text_len,                                                                       \
    }

static void put_counters(uint32_t *counters, const struct lt_store *store)
{
    counters[0] = store->counters.resources;
    counters[1] = store->counters.statements;
    counters[2] = store->counters.text;
    counters[3] = store->counters.reclaims;
}

static struct lt_scan scan_of(const uint32_t *cursor)
{
    struct lt_scan scan = {
        .subject = cursor[0], .predicate = cursor[1], .object = cursor[2], .chain = cursor[3], .next = cursor[4], .reclaims = cursor[5],
    };
    return scan;
}

static void put_scan(uint32_t *cursor, const struct lt_scan *scan)
{
    cursor[0] = scan->subject;
    cursor[1] = scan->predicate;
    cursor[2] = scan->object;
    cursor[3] = scan->chain;
    cursor[4] = scan->next;
    cursor[5] = scan->reclaims;
}

static struct lt_query query_of(const uint32_t *cursor)
{
    struct lt_query query = {.place = cursor[0], .levels = cursor[1], .reclaims = cursor[2]};
    int level;
    for (level = 0; level < LT_MAX_PATTERNS; level++) {
        query.level[level].chain = cursor[3 + 2 * level];
        query.level[level].record = cursor[3 + 2 * level + 1];
    }
    return query;
}

static void put_query(uint32_t *cursor, const struct lt_query *query)
{
    int level;
    cursor[0] = query->place;
    cursor[1] = query->levels;
    cursor[2] = query->reclaims;
    for (level = 0; level < LT_MAX_PATTERNS; level++) {
        cursor[3 + 2 * level] = query->level[level].chain;
        cursor[3 + 2 * level + 1] = query->level[level].record;
    }
}

uint32_t structs_name_kind(const uint8_t *name, size_t name_len, uint32_t *reply) { return lt_kind_of(name, name_len, reply); }

/* One word is the subject's start or the fault. The field that is not meant must be 0: otherwise the first word shows it. */
uint32_t structs_read_line(const uint8_t *text, size_t text_len, size_t at, uint64_t *reply)
{
    struct lt_line line;
    uint32_t result;
    memset(&line, JUNK, sizeof line);
    result = lt_line_read(text, text_len, at, &line);
    reply[0] = (result == LT_BAD_LINE ? line.subject.start : line.fault) == 0 ? line.what : JUNK;
    reply[1] = line.next;
    reply[2] = result == LT_BAD_LINE ? line.fault : line.subject.start;
    reply[3] = line.subject.length;
    reply[4] = line.predicate.start;
    reply[5] = line.predicate.length;
    reply[6] = line.object.start;
    reply[7] = line.object.length;
    return result;
}

uint32_t structs_check(STORE, uint32_t *reply)
{
    const struct lt_store store = STORE_OF_SLICES;
    return lt_store_check(&store, reply);
}

uint32_t structs_find(STORE, const uint8_t *name, size_t name_len, uint32_t *reply)
{
    const struct lt_store store = STORE_OF_SLICES;
    struct lt_lookup lookup;
    uint32_t result;
    memset(&lookup, JUNK, sizeof lookup);
    result = lt_store_find(&store, name, name_len, &lookup);
    reply[0] = lookup.number;
    reply[1] = lookup.position;
    return result;
}

uint32_t structs_number(STORE, const uint8_t *name, size_t name_len, uint32_t *reply)
{
    const struct lt_store store = STORE_OF_SLICES;
    return lt_store_number(&store, name, name_len, reply);
}

uint32_t structs_names_with_prefix(STORE, const uint8_t *prefix, size_t prefix_len, uint32_t *numbers, size_t numbers_len, uint32_t *reply)
{
    const struct lt_store store = STORE_OF_SLICES;
    return lt_store_names_with_prefix(&store, prefix, prefix_len, numbers, numbers_len, reply);
}

uint32_t structs_enter(STORE, const uint8_t *name, size_t name_len, uint32_t *reply)
{
    struct lt_store store = STORE_OF_SLICES;
    uint32_t result = lt_store_enter(&store, name, name_len, reply);
    put_counters(counters, &store);
    return result;
}

uint32_t structs_name(STORE, uint32_t number, uint32_t *reply)
{
    const struct lt_store store = STORE_OF_SLICES;
    struct lt_span name;
    uint32_t result;
    memset(&name, JUNK, sizeof name);
    result = lt_store_name(&store, number, &name);
    reply[0] = (uint32_t)name.start;
    reply[1] = (uint32_t)name.length;
    return result;
}

uint32_t structs_live(STORE, uint32_t number, uint32_t position, uint32_t *reply)
{
    const struct lt_store store = STORE_OF_SLICES;
    return lt_store_live(&store, number, (enum lt_position)position, reply);
}

uint32_t structs_statement(STORE, uint32_t number, uint32_t *reply)
{
    const struct lt_store store = STORE_OF_SLICES;
    struct lt_triple triple;
    uint32_t result;
    memset(&triple, JUNK, sizeof triple);
    result = lt_store_statement(&store, number, &triple);
    reply[0] = triple.subject;
    reply[1] = triple.predicate;
    reply[2] = triple.object;
    reply[3] = triple.retracted;
    return result;
}

uint32_t structs_assert(STORE, uint32_t subject, uint32_t predicate, uint32_t object, uint32_t *reply)
{
    struct lt_store store = STORE_OF_SLICES;
    struct lt_assertion assertion;
    uint32_t result;
    memset(&assertion, JUNK, sizeof assertion);
    result = lt_store_assert(&store, subject, predicate, object, &assertion);
    put_counters(counters, &store);
    reply[0] = assertion.status;
    reply[1] = assertion.number;
    return result;
}

uint32_t structs_retract(STORE, uint32_t subject, uint32_t predicate, uint32_t object, uint32_t *reply)
{
    struct lt_store store = STORE_OF_SLICES;
    uint32_t result = lt_store_retract(&store, subject, predicate, object, reply);
    put_counters(counters, &store);
    return result;
}

uint32_t structs_reclaim(STORE)
{
    struct lt_store store = STORE_OF_SLICES;
    uint32_t result = lt_store_reclaim(&store);
    put_counters(counters, &store);
    return result;
}

uint32_t structs_scan_open(STORE, uint32_t subject, uint32_t predicate, uint32_t object, uint32_t *cursor)
{
    const struct lt_store store = STORE_OF_SLICES;
    struct lt_scan scan = scan_of(cursor);
    uint32_t result = lt_store_scan_open(&store, subject, predicate, object, &scan);
    put_scan(cursor, &scan);
    return result;
}

uint32_t structs_scan_next(STORE, uint32_t *cursor, uint32_t budget, uint32_t *reply)
{
    const struct lt_store store = STORE_OF_SLICES;
    struct lt_scan scan = scan_of(cursor);
    struct lt_found found;
    uint32_t result;
    memset(&found, JUNK, sizeof found);
    result = lt_store_scan_next(&store, &scan, budget, &found);
    put_scan(cursor, &scan);
    reply[0] = found.step;
    reply[1] = found.statement;
    reply[2] = found.visits;
    return result;
}

uint32_t structs_query_open(STORE, const uint32_t *words, size_t words_len, uint32_t *cursor)
{
    const struct lt_store store = STORE_OF_SLICES;
    struct lt_query query = query_of(cursor);
    uint32_t result = lt_store_query_open(&store, words, words_len, &query);
    put_query(cursor, &query);
    return result;
}

uint32_t structs_query_next(STORE, const uint32_t *words, size_t words_len, uint32_t *cursor, uint32_t budget, uint32_t *reply)
{
    const struct lt_store store = STORE_OF_SLICES;
    struct lt_query query = query_of(cursor);
    struct lt_solution solution;
    uint32_t result;
    int variable;
    memset(&solution, JUNK, sizeof solution);
    result = lt_store_query_next(&store, words, words_len, &query, budget, &solution);
    put_query(cursor, &query);
    reply[0] = solution.step;
    reply[1] = solution.visits;
    for (variable = 0; variable < LT_VARIABLES; variable++)
        reply[2 + variable] = solution.resource[variable];
    return result;
}

uint32_t structs_export(STORE, uint8_t *out, size_t out_len, uint32_t *work, size_t work_len, uint32_t *reply)
{
    const struct lt_store store = STORE_OF_SLICES;
    return lt_store_export(&store, out, out_len, work, work_len, reply);
}
