/* Every inline function of the header, first on a store that is all zeros, with null for whatever has length 0, then on a small one. It is
 * compiled as C99 and as C++, without a warning: so is the header wherever it is used. What is not as it should be is told; status 1 then. */
#include <stdio.h>
#include <string.h>

#include "lemontiller.h"

enum { RESOURCES = 4, STATEMENTS = 2, TEXT_BYTES = 32, BUDGET = 9, JUNK = 77 };

static int failed;

#define EXPECT(condition)                                            \
    do {                                                             \
        if (!(condition)) {                                          \
            fprintf(stderr, "line %d: not %s\n", __LINE__, #condition); \
            failed = 1;                                              \
        }                                                            \
    } while (0)

static const uint8_t relay[] = {'<', 'r', '>'}, trips[] = {'<', 'p', '>'}, breaker[] = {'<', 'b', '>'}, absent[] = {'<', 'a', '>'};

/* A name's bytes and their number. */
#define NAME(name) name, sizeof name

static void versions(void)
{
    char spelled[40];
    snprintf(spelled, sizeof spelled, "%d.%d.%d", LT_VERSION_MAJOR, LT_VERSION_MINOR, LT_VERSION_PATCH);
    EXPECT(strcmp(spelled, LT_VERSION) == 0);
    EXPECT(lt_version() == LT_VERSION_NUMBER);
    EXPECT(LT_VERSION_NUMBER == LT_VERSION_MAJOR * 1000000u + LT_VERSION_MINOR * 1000u + LT_VERSION_PATCH);
}

static void results(void)
{
    uint32_t result;
    EXPECT(strcmp(lt_strerror(LT_ANSWERED), "answered") == 0);
    for (result = LT_CAPACITY; result <= LT_BAD_GROUP; result++)
        EXPECT(strcmp(lt_strerror(result), lt_strerror(result + 1)) != 0 && strlen(lt_strerror(result)) > 0);
}

/* Words to fields and back. */
static void words_and_fields(void)
{
    uint32_t words[LT_QUERY_CURSOR_WORDS], back[LT_QUERY_CURSOR_WORDS], k;
    struct lt_counters counters;
    struct lt_scan scan;
    struct lt_query query;
    for (k = 0; k < LT_QUERY_CURSOR_WORDS; k++)
        words[k] = 100 + k;
    lt_counters_from_words(&counters, words);
    lt_counters_to_words(&counters, back);
    EXPECT(memcmp(words, back, LT_COUNTER_WORDS * sizeof *words) == 0);
    lt_scan_from_words(&scan, words);
    lt_scan_to_words(&scan, back);
    EXPECT(memcmp(words, back, LT_CURSOR_WORDS * sizeof *words) == 0);
    lt_query_from_words(&query, words);
    lt_query_to_words(&query, back);
    EXPECT(memcmp(words, back, LT_QUERY_CURSOR_WORDS * sizeof *words) == 0);
}

/* No tables, no names, no lists and no pointers. */
static void nothing_lent(void)
{
    static struct lt_store store;
    struct lt_lookup lookup = {JUNK, JUNK};
    struct lt_line line;
    struct lt_span span = {JUNK, JUNK};
    struct lt_triple triple = {JUNK, JUNK, JUNK, JUNK};
    struct lt_assertion assertion = {JUNK, JUNK};
    struct lt_scan scan;
    struct lt_found found;
    struct lt_query query;
    struct lt_solution solution;
    uint32_t number = JUNK;

    EXPECT(lt_kind_of(NULL, 0, &number) == LT_MALFORMED && number == 0);
    EXPECT(lt_line_read(NULL, 0, 0, &line) == LT_ANSWERED && line.what == LT_LINE_END && line.next == 0 && line.fault == 0);
    EXPECT(lt_store_check(&store, &number) == LT_ANSWERED && number == 1);

    EXPECT(lt_store_find(&store, NULL, 0, &lookup) == LT_MALFORMED && lookup.number == 0 && lookup.position == 0);
    EXPECT(lt_store_find(&store, NAME(relay), &lookup) == LT_ANSWERED && lookup.number == 0 && lookup.position == 0);
    number = JUNK;
    EXPECT(lt_store_number(&store, NULL, 0, &number) == LT_MALFORMED && number == 0);
    number = JUNK;
    EXPECT(lt_store_number(&store, NAME(relay), &number) == LT_UNKNOWN_NUMBER && number == 0);
    number = JUNK;
    EXPECT(lt_store_names_with_prefix(&store, NULL, 0, NULL, 0, &number) == LT_ANSWERED && number == 0);
    EXPECT(lt_store_enter(&store, NULL, 0, &number) == LT_MALFORMED && number == 0);
    EXPECT(lt_store_enter(&store, NAME(relay), &number) == LT_FULL && number == 0);
    EXPECT(lt_store_name(&store, 1, &span) == LT_UNKNOWN_NUMBER && span.start == 0 && span.length == 0);
    number = JUNK;
    EXPECT(lt_store_live(&store, 1, LT_SUBJECT, &number) == LT_UNKNOWN_NUMBER && number == 0);
    EXPECT(lt_store_statement(&store, 1, &triple) == LT_UNKNOWN_NUMBER && triple.subject == 0 && triple.retracted == 0);
    EXPECT(lt_store_assert(&store, 1, 1, 1, &assertion) == LT_UNKNOWN_NUMBER && assertion.status == 0 && assertion.number == 0);
    number = JUNK;
    EXPECT(lt_store_retract(&store, 1, 1, 1, &number) == LT_UNKNOWN_NUMBER && number == 0);

    EXPECT(lt_store_scan_open(&store, LT_ANY, LT_ANY, LT_ANY, &scan) == LT_ANSWERED && scan.chain == LT_BY_NONE && scan.next == 0);
    EXPECT(lt_store_scan_next(&store, &scan, BUDGET, &found) == LT_ANSWERED && found.step == LT_ENDED && found.visits == 0);
    EXPECT(lt_store_query_open(&store, NULL, 0, &query) == LT_ANSWERED && query.place == LT_START);
    EXPECT(lt_store_query_next(&store, NULL, 0, &query, BUDGET, &solution) == LT_ANSWERED && solution.step == LT_FOUND);
    EXPECT(lt_store_query_next(&store, NULL, 0, &query, BUDGET, &solution) == LT_ANSWERED && solution.step == LT_ENDED);
    number = JUNK;
    EXPECT(lt_store_export(&store, NULL, 0, NULL, 0, &number) == LT_ANSWERED && number == 0);
    EXPECT(lt_store_reclaim(&store) == LT_ANSWERED && store.counters.reclaims == 1);

    /* Counters that nothing can hold: the pointers are not looked at. */
    store.counters.resources = 1;
    number = JUNK;
    EXPECT(lt_store_live(&store, 1, LT_SUBJECT, &number) == LT_CAPACITY && number == 0);
    EXPECT(lt_store_number(&store, NAME(relay), &number) == LT_CAPACITY && number == 0);
}

/* A relay that trips a breaker, and itself until that is retracted. */
static void small_store(void)
{
    static uint32_t resources[RESOURCES * LT_RESOURCE_WORDS], statements[STATEMENTS * LT_STATEMENT_WORDS], index_words[RESOURCES];
    static uint32_t work[STATEMENTS];
    static uint8_t text[TEXT_BYTES], file[STATEMENTS * LT_MAX_LINE];
    static const char expected[] = "<r> <p> <b> .\n";
    static struct lt_store store;
    struct lt_lookup lookup;
    struct lt_span span;
    struct lt_triple triple;
    struct lt_assertion assertion;
    struct lt_scan scan;
    struct lt_found found;
    struct lt_query query;
    struct lt_solution solution;
    uint32_t words[3], numbers[RESOURCES], r, p, b, number;

    store.resources = resources, store.resources_len = sizeof resources / sizeof *resources;
    store.statements = statements, store.statements_len = sizeof statements / sizeof *statements;
    store.index = index_words, store.index_len = RESOURCES;
    store.text = text, store.text_len = TEXT_BYTES;
    EXPECT(lt_store_enter(&store, NAME(relay), &r) == LT_ANSWERED && r == 1);
    EXPECT(lt_store_enter(&store, NAME(trips), &p) == LT_ANSWERED && p == 2);
    EXPECT(lt_store_enter(&store, NAME(breaker), &b) == LT_ANSWERED && b == 3);
    EXPECT(lt_store_assert(&store, r, p, b, &assertion) == LT_ANSWERED && assertion.status == LT_NEW);
    EXPECT(lt_store_assert(&store, r, p, r, &assertion) == LT_ANSWERED && assertion.number == 2);
    EXPECT(lt_store_live(&store, r, LT_SUBJECT, &number) == LT_ANSWERED && number == 2);
    EXPECT(lt_store_retract(&store, r, p, r, &number) == LT_ANSWERED && number == 2);

    EXPECT(lt_store_name(&store, b, &span) == LT_ANSWERED && span.length == sizeof breaker);
    EXPECT(lt_store_statement(&store, 1, &triple) == LT_ANSWERED && triple.object == b && triple.retracted == 0);
    EXPECT(lt_store_names_with_prefix(&store, relay, 1, numbers, RESOURCES, &number) == LT_ANSWERED && number == 3 && numbers[0] == b);

    /* Finding a name that is not there gives what a pattern takes for any; lt_store_number does not. */
    EXPECT(lt_store_find(&store, NAME(absent), &lookup) == LT_ANSWERED && lookup.number == LT_ANY);
    number = JUNK;
    EXPECT(lt_store_number(&store, NAME(absent), &number) == LT_UNKNOWN_NUMBER && number == 0);
    EXPECT(lt_store_number(&store, NAME(breaker), &number) == LT_ANSWERED && number == b);
    EXPECT(lt_store_number(&store, breaker, 2, &number) == LT_MALFORMED && number == 0);

    /* A count for each position, of numbers from 1 to R. */
    EXPECT(lt_store_live(&store, r, LT_SUBJECT, &number) == LT_ANSWERED && number == 1);
    EXPECT(lt_store_live(&store, r, LT_OBJECT, &number) == LT_ANSWERED && number == 0);
    EXPECT(lt_store_live(&store, p, LT_PREDICATE, &number) == LT_ANSWERED && number == 1);
    EXPECT(lt_store_live(&store, b, LT_OBJECT, &number) == LT_ANSWERED && number == 1);
    number = JUNK;
    EXPECT(lt_store_live(&store, 0, LT_SUBJECT, &number) == LT_UNKNOWN_NUMBER && number == 0);
    number = JUNK;
    EXPECT(lt_store_live(&store, b + 1, LT_SUBJECT, &number) == LT_UNKNOWN_NUMBER && number == 0);
    number = JUNK;
    EXPECT(lt_store_live(&store, UINT32_MAX, LT_SUBJECT, &number) == LT_UNKNOWN_NUMBER && number == 0);
    number = JUNK;
    EXPECT(lt_store_live(&store, b, LT_CAST(enum lt_position, LT_OBJECT + 1), &number) == LT_UNKNOWN_NUMBER && number == 0);
    store.resources_len = 3 * LT_RESOURCE_WORDS - 1;
    number = JUNK;
    EXPECT(lt_store_live(&store, r, LT_SUBJECT, &number) == LT_CAPACITY && number == 0);
    store.resources_len = 3 * LT_RESOURCE_WORDS;
    EXPECT(lt_store_live(&store, b, LT_OBJECT, &number) == LT_ANSWERED && number == 1);

    EXPECT(lt_store_scan_open(&store, r, LT_ANY, LT_ANY, &scan) == LT_ANSWERED);
    EXPECT(lt_store_scan_next(&store, &scan, BUDGET, &found) == LT_ANSWERED && found.statement == 1 && found.visits == 2);
    words[0] = LT_VARIABLE(0), words[1] = p, words[2] = LT_VARIABLE(LT_VARIABLES - 1);
    EXPECT(lt_store_query_open(&store, words, 3, &query) == LT_ANSWERED);
    EXPECT(lt_store_query_next(&store, words, 3, &query, BUDGET, &solution) == LT_ANSWERED && solution.step == LT_FOUND);
    EXPECT(solution.resource[0] == r && solution.resource[LT_VARIABLES - 1] == b && solution.resource[1] == 0);
    EXPECT(lt_store_export(&store, file, sizeof file, work, STATEMENTS, &number) == LT_ANSWERED);
    EXPECT(number == sizeof expected - 1 && memcmp(file, expected, sizeof expected - 1) == 0);
    EXPECT(lt_store_reclaim(&store) == LT_ANSWERED && store.counters.statements == 1);
    EXPECT(lt_store_check(&store, &number) == LT_ANSWERED && number == 1);
}

int main(void)
{
    versions();
    results();
    words_and_fields();
    nothing_lent();
    small_store();
    return failed;
}
