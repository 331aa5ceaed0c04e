/* How much stack the calls of the library take: each is made on a stack that was painted, on a store filled up to its limits, and what is
 * no longer painted afterwards is told, the inline function's part included. Frames have fixed sizes, and lt_export alone calls itself, to
 * sort: it goes deepest where all statements are live. Status 1 where a call takes LIMIT bytes or more. To be linked with -z now: otherwise
 * the dynamic loader, which binds memcpy at its first call, is measured too. */
#define _XOPEN_SOURCE 700
#include <stdio.h>
#include <stdlib.h>
#include <string.h>
#include <ucontext.h>

#include "lemontiller.h"

/* The number that the header states. */
enum { LIMIT = 4096 };

enum { STACK_BYTES = 1 << 18, PAINT = 0xA5, BUDGET = 1000, LAST = LT_MAX_RESOURCES };

static uint32_t resources[LT_MAX_RESOURCES * LT_RESOURCE_WORDS], statements[LT_MAX_STATEMENTS * LT_STATEMENT_WORDS];
static uint32_t index_words[LT_MAX_RESOURCES], work[LT_MAX_STATEMENTS], numbers[LT_MAX_RESOURCES];
static uint8_t text[LT_MAX_TEXT], file[LT_MAX_STATEMENTS * 64];
static struct lt_store store = {
    .resources = resources,   .resources_len = sizeof resources / sizeof *resources,
    .statements = statements, .statements_len = sizeof statements / sizeof *statements,
    .index = index_words,     .index_len = LT_MAX_RESOURCES,
    .text = text,             .text_len = LT_MAX_TEXT,
};

/* Six patterns ?0 <p> ?0, and the same statement for each of them. */
static uint32_t words[3 * LT_MAX_PATTERNS];
static struct lt_scan scan;
static struct lt_query query;
static uint32_t result, status;

/* The name that calls are made with. All have one length, and name k is above those before it: each is entered at the index's end. */
static char name[16];
static size_t name_len;

static void name_it(uint32_t k) { name_len = (size_t)snprintf(name, sizeof name, "<n:%05u>", (unsigned)k); }

static void name_kind(void) { result = lt_kind_of((const uint8_t *)name, name_len, &status); }

static void read_line(void)
{
    static const char line[] = "<n:00001> <n:00002> \"A\"^^<http://www.w3.org/2001/XMLSchema#string> . # a comment\n";
    struct lt_line read;
    result = lt_line_read((const uint8_t *)line, sizeof line - 1, 0, &read);
    status = read.what;
}

static void enter(void) { result = lt_store_enter(&store, (const uint8_t *)name, name_len, &status); }
static void number(void) { result = lt_store_number(&store, (const uint8_t *)name, name_len, &status); }

static void find(void)
{
    struct lt_lookup lookup;
    result = lt_store_find(&store, (const uint8_t *)name, name_len, &lookup);
}

static void names_with_prefix(void)
{
    static const uint8_t beginning[] = {'<', 'n'};
    result = lt_store_names_with_prefix(&store, beginning, sizeof beginning, numbers, LT_MAX_RESOURCES, &status);
}

static void name_of(void)
{
    struct lt_span span;
    result = lt_store_name(&store, LAST, &span);
}

static void live(void) { result = lt_store_live(&store, LAST, LT_OBJECT, &status); }

/* Statement n has resource n as subject and object, and the first as predicate. */
static void assert_one(void)
{
    struct lt_assertion assertion;
    uint32_t n = store.counters.statements + 1;
    result = lt_store_assert(&store, n, 1, n, &assertion);
}

static void statement(void)
{
    struct lt_triple triple;
    result = lt_store_statement(&store, LAST, &triple);
}

static void retract(void) { result = lt_store_retract(&store, LAST, 1, LAST, &status); }
static void revive(void)
{
    struct lt_assertion assertion;
    result = lt_store_assert(&store, LAST, 1, LAST, &assertion);
}
static void check(void) { result = lt_store_check(&store, &status); }
static void reclaim(void) { result = lt_store_reclaim(&store); }
static void scan_open(void) { result = lt_store_scan_open(&store, LT_ANY, 1, LT_ANY, &scan); }
static void query_open(void) { result = lt_store_query_open(&store, words, 3 * LT_MAX_PATTERNS, &query); }

static void scan_next(void)
{
    struct lt_found found;
    result = lt_store_scan_next(&store, &scan, BUDGET, &found);
}

static void query_next(void)
{
    struct lt_solution solution;
    result = lt_store_query_next(&store, words, 3 * LT_MAX_PATTERNS, &query, BUDGET, &solution);
}

static void export_all(void) { result = lt_store_export(&store, file, sizeof file, work, LT_MAX_STATEMENTS, &status); }

static const struct {
    const char *name;
    void (*make)(void);
} calls[] = {
    {"lt_enter", enter},
    {"lt_assert", assert_one},
    {"lt_name_kind", name_kind},
    {"lt_read_line", read_line},
    {"lt_find", find},
    {"lt_store_number", number},
    {"lt_names_with_prefix", names_with_prefix},
    {"lt_name", name_of},
    {"lt_store_live", live},
    {"lt_statement", statement},
    {"lt_check", check},
    {"lt_scan_open", scan_open},
    {"lt_scan_next", scan_next},
    {"lt_query_open", query_open},
    {"lt_query_next", query_next},
    {"lt_query_next", query_next},
    {"lt_export", export_all},
    {"lt_retract", retract},
    {"lt_assert", revive},
    {"lt_retract", retract},
    {"lt_reclaim", reclaim},
};

static uint8_t stack[STACK_BYTES];
static ucontext_t here, there;
static void (*made)(void);
static const uint8_t *top;

/* The bytes below the caller's frame are the call's. */
static void call_made(void)
{
    top = (const uint8_t *)__builtin_frame_address(0);
    made();
}

/* The bytes of stack that a call takes. */
static size_t taken(void (*make)(void))
{
    const uint8_t *lowest = stack;
    memset(stack, PAINT, sizeof stack);
    made = make;
    getcontext(&there);
    there.uc_stack.ss_sp = stack;
    there.uc_stack.ss_size = sizeof stack;
    there.uc_link = &here;
    makecontext(&there, call_made, 0);
    swapcontext(&here, &there);
    while (*lowest == PAINT)
        lowest++;
    return (size_t)(top - lowest);
}

static void must(const char *name)
{
    if (result != LT_ANSWERED) {
        fprintf(stderr, "%s: %s\n", name, lt_strerror(result));
        exit(1);
    }
}

/* Up to one below the limits: the first calls that are told are to fill the store. */
static void fill(void)
{
    while (store.counters.resources < LAST - 1) {
        name_it(store.counters.resources + 1);
        enter();
        must("lt_enter");
    }
    while (store.counters.statements < LAST - 1) {
        assert_one();
        must("lt_assert");
    }
}

int main(void)
{
    size_t k, bytes, most = 0;
    const char *deepest = "";
    fill();
    name_it(LAST);
    for (k = 0; k < LT_MAX_PATTERNS; k++)
        words[3 * k] = words[3 * k + 2] = LT_VARIABLE(0), words[3 * k + 1] = 1;
    for (k = 0; k < sizeof calls / sizeof *calls; k++) {
        bytes = taken(calls[k].make);
        must(calls[k].name);
        printf("%-20s %5zu\n", calls[k].name, bytes);
        if (bytes > most)
            most = bytes, deepest = calls[k].name;
    }
    printf("at most %zu bytes, by %s\n", most, deepest);
    return most < LIMIT ? 0 : 1;
}
