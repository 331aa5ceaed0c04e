/* The relays by the beginning of their names, a relay's live count, its contacts by name, a question, a rewired relay, and the bay's file:
 * what an embedder of the store does, in the order in which a test set does it.
 *
 *     contacts FILE
 *
 * reads a file of N-Triples into tables of its own, lists the names that begin with <r:, tells how many live statements relay <r:21> is
 * the subject of, lists what it trips, and asks which breakers are tripped by a relay that trips <b:4>. Then it rewires the relay from
 * <b:4> to <b:9>, gets the room of the retracted statement back and lists again, the names that begin with <b: too. Last it writes the
 * statements as a file. Refused lines are told and passed over; any other refusal ends the program with status 1.
 */
#include <stdio.h>
#include <stdlib.h>
#include <string.h>

#include "lemontiller.h"

/* The store is four tables and the counters, and nothing else. They may live anywhere: static, on the heap, in a mapped file. With the
 * counters at 0 the tables may hold anything. */
enum { RESOURCES = 512, STATEMENTS = 1024, TEXT_BYTES = 16384 };
static uint32_t resources[RESOURCES * LT_RESOURCE_WORDS];
static uint32_t statements[STATEMENTS * LT_STATEMENT_WORDS];
static uint32_t index_words[RESOURCES];
static uint8_t text[TEXT_BYTES];

#define LENGTH(array) (sizeof(array) / sizeof *(array))

static struct lt_store store = {
    .resources = resources,   .resources_len = LENGTH(resources),
    .statements = statements, .statements_len = LENGTH(statements),
    .index = index_words,     .index_len = LENGTH(index_words),
    .text = text,             .text_len = LENGTH(text),
};

/* The records that one call may visit. A screen picks what its frame allows and comes back with the cursor for more. */
enum { BUDGET = 1 };

/* The names that a screen has lines for. */
enum { LINES = 20 };

static void must(uint32_t result, const char *doing)
{
    if (result != LT_ANSWERED) {
        fprintf(stderr, "%s: %s\n", doing, lt_strerror(result));
        exit(1);
    }
}

/* A name that is not there is refused here. Its number by lt_store_find would be 0, and 0 in a pattern is any. */
static uint32_t number_of(const char *name)
{
    uint32_t number;
    must(lt_store_number(&store, (const uint8_t *)name, strlen(name), &number), name);
    return number;
}

/* The reply is a part of our own text, so there is nothing to copy or to free. */
static void print_name(uint32_t number)
{
    struct lt_span name;
    must(lt_store_name(&store, number, &name), "name");
    printf("%.*s", (int)name.length, (const char *)store.text + name.start);
}

static uint32_t enter(const uint8_t *input, struct lt_span name, uint32_t *number)
{
    return lt_store_enter(&store, input + name.start, name.length, number);
}

/* Enters the three names of a line and asserts their triple. Names are entered one by one: those before a refusal remain. */
static uint32_t load_triple(const uint8_t *input, const struct lt_line *line)
{
    struct lt_assertion assertion;
    uint32_t subject, predicate, object, result;
    if ((result = enter(input, line->subject, &subject)) != LT_ANSWERED ||
        (result = enter(input, line->predicate, &predicate)) != LT_ANSWERED ||
        (result = enter(input, line->object, &object)) != LT_ANSWERED)
        return result;
    return lt_store_assert(&store, subject, predicate, object, &assertion);
}

static void load(const uint8_t *input, size_t length)
{
    struct lt_line line;
    size_t at, count;
    for (at = 0, count = 1;; at = line.next, count++) {
        uint32_t result = lt_line_read(input, length, at, &line);
        if (result == LT_BAD_LINE) {
            printf("line %zu: %s, byte %zu\n", count, lt_strerror(result), line.fault);
            continue;
        }
        must(result, "reading");
        if (line.what == LT_LINE_END)
            return;
        if (line.what == LT_LINE_TRIPLE && (result = load_triple(input, &line)) != LT_ANSWERED)
            printf("line %zu: %s\n", count, lt_strerror(result));
    }
}

/* Lists the names with a beginning in byte order, as many as there are lines, and tells how many there are. Nothing is walked for it, so a
 * screen may ask at every key that is typed. */
static void list_names(const char *beginning)
{
    uint32_t numbers[LINES], total, line;
    must(lt_store_names_with_prefix(&store, (const uint8_t *)beginning, strlen(beginning), numbers, LINES, &total), beginning);
    printf("names that begin with %s, %u in all\n", beginning, (unsigned)total);
    for (line = 0; line < total && line < LINES; line++) {
        printf("  ");
        print_name(numbers[line]);
        printf("\n");
    }
}

/* Tells how many live statements a relay is the subject of: a word of its record, so a screen may ask as often as it draws. */
static void tell_live(const char *relay)
{
    uint32_t live;
    must(lt_store_live(&store, number_of(relay), LT_SUBJECT, &live), relay);
    printf("live statements of %s: %u\n", relay, (unsigned)live);
}

/* Lists the objects of a relay's statements, the highest number first. The cursor is plain numbers: it may be kept while the store changes,
 * up to the next reclaim. */
static void list_contacts(const char *relay, const char *trips)
{
    struct lt_scan scan;
    struct lt_found found;
    struct lt_triple triple;
    must(lt_store_scan_open(&store, number_of(relay), number_of(trips), LT_ANY, &scan), "opening the list");
    printf("contacts of %s\n", relay);
    for (;;) {
        must(lt_store_scan_next(&store, &scan, BUDGET, &found), "listing");
        if (found.step == LT_ENDED)
            return;
        if (found.step == LT_SPENT)
            continue; /* the budget is gone and records remain: here a screen would draw, then go on */
        must(lt_store_statement(&store, found.statement, &triple), "statement");
        printf("  ");
        print_name(triple.object);
        printf("\n");
    }
}

/* Asks for every relay ?0 that trips the breaker, and every ?1 that this relay trips. */
static void ask_tripped_with(const char *breaker, const char *trips)
{
    uint32_t words[2 * 3];
    struct lt_query query;
    struct lt_solution solution;
    words[0] = LT_VARIABLE(0), words[1] = number_of(trips), words[2] = number_of(breaker);
    words[3] = LT_VARIABLE(0), words[4] = number_of(trips), words[5] = LT_VARIABLE(1);
    must(lt_store_query_open(&store, words, LENGTH(words), &query), "opening the question");
    printf("tripped together with %s\n", breaker);
    for (;;) {
        must(lt_store_query_next(&store, words, LENGTH(words), &query, BUDGET, &solution), "asking");
        if (solution.step == LT_ENDED)
            return;
        if (solution.step == LT_SPENT)
            continue;
        printf("  ");
        print_name(solution.resource[1]);
        printf(" by ");
        print_name(solution.resource[0]);
        printf("\n");
    }
}

/* Rewires a relay from one breaker to another. The retracted statement keeps its room until the store is reclaimed; a set does that when a
 * table is full. From then on cursors are to be opened again, and a statement's number from before names another one or none. */
static void rewire(const char *relay, const char *trips, const char *from, const char *to)
{
    struct lt_assertion assertion;
    uint32_t number, before = store.counters.statements;
    must(lt_store_retract(&store, number_of(relay), number_of(trips), number_of(from), &number), "retracting");
    must(lt_store_reclaim(&store), "reclaiming");
    printf("rewired from %s to %s, statements given back: %u\n", from, to, (unsigned)(before - store.counters.statements));
    must(lt_store_enter(&store, (const uint8_t *)to, strlen(to), &number), to);
    must(lt_store_assert(&store, number_of(relay), number_of(trips), number, &assertion), "asserting");
}

/* Writes the statements as a file for other software. The output is lent at its longest; a word a statement is lent to sort them. */
static void write_file(void)
{
    static uint8_t file[STATEMENTS * LT_MAX_LINE];
    static uint32_t work[STATEMENTS];
    uint32_t length;
    must(lt_store_export(&store, file, LENGTH(file), work, LENGTH(work), &length), "writing the file");
    printf("file of %u bytes\n%.*s", (unsigned)length, (int)length, (const char *)file);
}

int main(int argc, char **argv)
{
    static uint8_t input[1 << 16];
    size_t length;
    uint32_t sound;
    FILE *file = argc == 2 ? fopen(argv[1], "rb") : NULL;
    if (file == NULL) {
        fprintf(stderr, "usage: contacts FILE\n");
        return 1;
    }
    if (lt_version() != LT_VERSION_NUMBER) {
        fprintf(stderr, "lemontiller.h has version %s, the library another one\n", LT_VERSION);
        return 1;
    }
    length = fread(input, 1, sizeof input, file);
    if (ferror(file) || length == sizeof input) {
        fprintf(stderr, "%s: cannot be read, or too long\n", argv[1]);
        return 1;
    }
    fclose(file);

    load(input, length);
    printf("%u resources, %u statements\n", (unsigned)store.counters.resources,
           (unsigned)store.counters.statements);
    list_names("<r:");
    tell_live("<r:21>");
    list_contacts("<r:21>", "<p:trips>");
    ask_tripped_with("<b:4>", "<p:trips>");
    rewire("<r:21>", "<p:trips>", "<b:4>", "<b:9>");
    list_contacts("<r:21>", "<p:trips>");
    list_names("<b:");
    write_file();

    /* A store that comes from a file or a wire is checked once; one made by this library's own calls is sound. */
    must(lt_store_check(&store, &sound), "checking");
    printf("%s\n", sound ? "sound" : "not sound");
    return 0;
}
