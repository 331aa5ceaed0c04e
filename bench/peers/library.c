/* The library, as an embedder would use it: tables lent from malloc, every answer's result tested. */
#include "bench.h"
#include "lemontiller.h"
#include <stdio.h>
#include <stdlib.h>
#include <string.h>

const char *peer_name = "library";
const int peer_sorts = 1;

/* As many visits as a call may make: no listing or join here is cut short. */
#define NO_LIMIT 0xFFFFFFFFu

typedef struct {
    uint32_t counters[LT_COUNTER_WORDS];
    uint32_t *resources, *statements, *index;
    uint8_t *text;
    uint32_t *numbers; /* lent for lists of names, and as working words */
    uint32_t p1, p2, p3;
    int into;
} store;

/* The five slices that every store function begins with. */
#define LENT(s)                                                                                                         \
    (s)->counters, LT_COUNTER_WORDS, (s)->resources, LT_MAX_RESOURCES * LT_RESOURCE_WORDS, (s)->statements,             \
        LT_MAX_STATEMENTS * LT_STATEMENT_WORDS, (s)->index, LT_MAX_RESOURCES, (s)->text, LT_MAX_TEXT

#define U(n) ((uint32_t)(uintptr_t)(n))

static void must(uint32_t result)
{
    if (result == LT_ANSWERED) return;
    fprintf(stderr, "library: %s\n", lt_strerror(result));
    exit(1);
}

void *peer_open(void)
{
    store *s = calloc(1, sizeof *s);
    s->resources = malloc(LT_MAX_RESOURCES * LT_RESOURCE_WORDS * sizeof *s->resources);
    s->statements = malloc(LT_MAX_STATEMENTS * LT_STATEMENT_WORDS * sizeof *s->statements);
    s->index = malloc(LT_MAX_RESOURCES * sizeof *s->index);
    s->text = malloc(LT_MAX_TEXT);
    s->numbers = malloc((LT_MAX_RESOURCES > LT_MAX_STATEMENTS ? LT_MAX_RESOURCES : LT_MAX_STATEMENTS) * sizeof *s->numbers);
    return s;
}

void peer_close(void *st)
{
    store *s = st;
    free(s->resources);
    free(s->statements);
    free(s->index);
    free(s->text);
    free(s->numbers);
    free(s);
}

size_t peer_parse(const char *text, size_t len)
{
    uint64_t line[LT_LINE_WORDS];
    size_t at = 0, n = 0;
    for (;;) {
        must(lt_read_line((const uint8_t *)text, len, at, line, LT_LINE_WORDS));
        if (line[0] == LT_LINE_END) return n;
        n += line[0] == LT_LINE_TRIPLE;
        at = line[1];
    }
}

size_t peer_load(void *st, const char *text, size_t len)
{
    store *s = st;
    const uint8_t *bytes = (const uint8_t *)text;
    uint64_t line[LT_LINE_WORDS];
    size_t at = 0;
    for (;;) {
        must(lt_read_line(bytes, len, at, line, LT_LINE_WORDS));
        if (line[0] == LT_LINE_END) return s->counters[1];
        at = line[1];
        if (line[0] != LT_LINE_TRIPLE) continue;
        uint32_t number[3], reply[2];
        for (int i = 0; i < 3; i++) must(lt_enter(LENT(s), bytes + line[2 + 2 * i], line[3 + 2 * i], &number[i], 1));
        must(lt_assert(LENT(s), number[0], number[1], number[2], reply, 2));
    }
}

static uint32_t find(const store *s, const char *name, size_t len)
{
    uint32_t reply[2];
    must(lt_find(LENT(s), (const uint8_t *)name, len, reply, 2));
    return reply[0];
}

node peer_node(void *st, const char *name, size_t len) { return (node)(uintptr_t)find(st, name, len); }

void peer_node_free(void *st, node n) { (void)st, (void)n; }

size_t peer_names(void *st, const char *prefix, size_t len)
{
    const store *s = st;
    uint32_t total;
    size_t n = 0;
    must(lt_names_with_prefix(LENT(s), (const uint8_t *)prefix, len, s->numbers, LT_MAX_RESOURCES, &total, 1));
    for (uint32_t i = 0; i < total; i++) n += s->numbers[i] != 0;
    return n;
}

size_t peer_export(void *st, char *out, size_t room)
{
    const store *s = st;
    uint32_t length;
    must(lt_export(LENT(s), (uint8_t *)out, room, s->numbers, LT_MAX_STATEMENTS, &length, 1));
    return length;
}

int peer_contains(void *st, node a, node b, node c)
{
    const store *s = st;
    uint32_t cursor[LT_CURSOR_WORDS], reply[LT_SCAN_REPLY_WORDS];
    must(lt_scan_open(LENT(s), U(a), U(b), U(c), cursor, LT_CURSOR_WORDS));
    must(lt_scan_next(LENT(s), cursor, LT_CURSOR_WORDS, NO_LIMIT, reply, LT_SCAN_REPLY_WORDS));
    return reply[0] == LT_FOUND;
}

size_t peer_list(void *st, node a, node b, node c)
{
    const store *s = st;
    uint32_t cursor[LT_CURSOR_WORDS], reply[LT_SCAN_REPLY_WORDS];
    size_t n = 0;
    must(lt_scan_open(LENT(s), U(a), U(b), U(c), cursor, LT_CURSOR_WORDS));
    for (;;) {
        must(lt_scan_next(LENT(s), cursor, LT_CURSOR_WORDS, NO_LIMIT, reply, LT_SCAN_REPLY_WORDS));
        if (reply[0] != LT_FOUND) return n;
        n += s->statements[LT_STATEMENT_WORDS * (reply[1] - 1)] != 0;
    }
}

void peer_join_open(void *st, const join_shape *j)
{
    store *s = st;
    s->p1 = find(s, j->p1, strlen(j->p1));
    s->p2 = find(s, j->p2, strlen(j->p2));
    s->p3 = find(s, j->p3, strlen(j->p3));
    s->into = j->into;
}

size_t peer_join(void *st, const char *k, size_t len)
{
    const store *s = st;
    uint32_t x = LT_VARIABLE(0), y = LT_VARIABLE(1), z = LT_VARIABLE(2);
    uint32_t words[9] = {x, s->p1, find(s, k, len), x, s->p2, y, s->into ? z : y, s->p3, s->into ? y : z};
    uint32_t cursor[LT_QUERY_CURSOR_WORDS], reply[LT_QUERY_REPLY_WORDS];
    size_t n = 0;
    must(lt_query_open(LENT(s), words, 9, cursor, LT_QUERY_CURSOR_WORDS));
    for (;;) {
        must(lt_query_next(LENT(s), words, 9, cursor, LT_QUERY_CURSOR_WORDS, NO_LIMIT, reply, LT_QUERY_REPLY_WORDS));
        if (reply[0] != LT_FOUND) return n;
        n += reply[2] != 0;
    }
}

void peer_retract_begin(void *st) { (void)st; }

void peer_retract_end(void *st) { (void)st; }

int peer_retract(void *st, node a, node b, node c)
{
    store *s = st;
    uint32_t number;
    must(lt_retract(LENT(s), U(a), U(b), U(c), &number, 1));
    return number != 0;
}

int peer_check(void *st)
{
    const store *s = st;
    uint32_t sound;
    must(lt_check(LENT(s), &sound, 1));
    return (int)sound;
}

/* What is in use of the tables; the rest of the copy holds anything. */
void *peer_copy(void *st)
{
    const store *s = st;
    store *t = peer_open();
    memcpy(t->counters, s->counters, sizeof t->counters);
    memcpy(t->resources, s->resources, s->counters[0] * LT_RESOURCE_WORDS * sizeof *t->resources);
    memcpy(t->statements, s->statements, s->counters[1] * LT_STATEMENT_WORDS * sizeof *t->statements);
    memcpy(t->index, s->index, s->counters[0] * sizeof *t->index);
    memcpy(t->text, s->text, s->counters[2]);
    return t;
}

void peer_retract_each(void *st, size_t n, size_t step)
{
    store *s = st;
    for (; n <= s->counters[1]; n += step) {
        const uint32_t *triple = s->statements + LT_STATEMENT_WORDS * (n - 1);
        uint32_t number;
        must(lt_retract(LENT(s), triple[0], triple[1], triple[2], &number, 1));
    }
}

size_t peer_reclaim(void *st)
{
    store *s = st;
    must(lt_reclaim(LENT(s)));
    return s->counters[1];
}

size_t peer_walk(void *st, node p)
{
    const store *s = st;
    uint32_t cursor[LT_CURSOR_WORDS], reply[LT_SCAN_REPLY_WORDS];
    must(lt_scan_open(LENT(s), 0, U(p), 0, cursor, LT_CURSOR_WORDS));
    must(lt_scan_next(LENT(s), cursor, LT_CURSOR_WORDS, NO_LIMIT, reply, LT_SCAN_REPLY_WORDS));
    return reply[0] == LT_ENDED ? reply[2] : 0;
}

/* What a caller must lend for exactly this content. */
size_t peer_bytes(void *st)
{
    const store *s = st;
    size_t resources = s->counters[0], statements = s->counters[1], text = s->counters[2];
    return sizeof(uint32_t) * (statements * LT_STATEMENT_WORDS + resources * (LT_RESOURCE_WORDS + 1)) + text;
}
