/* Paper 01's own structure in plain C (../reference). */
#include "bench.h"
#include "nt.h"
#include "store.h"
#include <stdlib.h>
#include <string.h>

#ifndef NAME
#define NAME "reference"
#endif
const char *peer_name = NAME;
const int peer_sorts = 1;

#define U(n) ((uint32_t)(uintptr_t)(n))

typedef struct {
    store s;
    uint32_t *numbers; /* lent for lists of names, and as working words */
    uint32_t p1, p2, p3;
    int into;
} db;

void *peer_open(void)
{
    db *d = calloc(1, sizeof *d);
    d->s = (store){.cap_R = MAX_RESOURCES, .cap_T = MAX_STATEMENTS, .cap_B = MAX_TEXT};
    d->s.res = malloc((MAX_RESOURCES + 1) * sizeof *d->s.res);
    d->s.st = malloc((MAX_STATEMENTS + 1) * sizeof *d->s.st);
    d->s.index = malloc(MAX_RESOURCES * sizeof *d->s.index);
    d->s.text = malloc(MAX_TEXT);
    d->numbers = malloc((MAX_RESOURCES > MAX_STATEMENTS ? MAX_RESOURCES : MAX_STATEMENTS) * sizeof *d->numbers);
    return d;
}

void peer_close(void *st)
{
    db *d = st;
    free(d->s.res);
    free(d->s.st);
    free(d->s.index);
    free(d->s.text);
    free(d->numbers);
    free(d);
}

size_t peer_parse(const char *text, size_t len)
{
    size_t pos = 0, n = 0;
    for (;;) {
        nt_line l = nt_read(text, len, &pos);
        if (l.what == NT_END) return n;
        n += l.what == NT_TRIPLE;
    }
}

size_t peer_load(void *st, const char *text, size_t len)
{
    store *s = &((db *)st)->s;
    size_t pos = 0;
    for (;;) {
        nt_line l = nt_read(text, len, &pos);
        if (l.what == NT_END) return s->T;
        if (l.what != NT_TRIPLE) continue;
        uint32_t t[3];
        for (int i = 0; i < 3; i++) t[i] = store_enter(s, l.t[i].at, (uint32_t)l.t[i].len);
        if (!store_assert(s, t)) abort();
    }
}

static uint32_t find(const db *d, const char *name, size_t len) { return store_find(&d->s, name, (uint32_t)len); }

node peer_node(void *st, const char *name, size_t len) { return (node)(uintptr_t)find(st, name, len); }

void peer_node_free(void *st, node n) { (void)st, (void)n; }

size_t peer_names(void *st, const char *prefix, size_t len)
{
    const db *d = st;
    size_t n = 0;
    uint32_t total = store_names(&d->s, prefix, (uint32_t)len, d->numbers, MAX_RESOURCES);
    for (uint32_t i = 0; i < total; i++) n += d->numbers[i] != 0;
    return n;
}

size_t peer_export(void *st, char *out, size_t room)
{
    const db *d = st;
    return store_export(&d->s, out, room, d->numbers);
}

int peer_contains(void *st, node a, node b, node c)
{
    const store *s = &((db *)st)->s;
    listing l = store_open(s, U(a), U(b), U(c));
    uint32_t n, visits;
    return store_next(s, &l, UINT32_MAX, &n, &visits) == FOUND;
}

size_t peer_list(void *st, node a, node b, node c)
{
    const store *s = &((db *)st)->s;
    listing l = store_open(s, U(a), U(b), U(c));
    uint32_t n, visits;
    size_t found = 0;
    while (store_next(s, &l, UINT32_MAX, &n, &visits) == FOUND) found += s->st[n].part[0] != 0;
    return found;
}

void peer_join_open(void *st, const join_shape *j)
{
    db *d = st;
    d->p1 = find(d, j->p1, strlen(j->p1));
    d->p2 = find(d, j->p2, strlen(j->p2));
    d->p3 = find(d, j->p3, strlen(j->p3));
    d->into = j->into;
}

/* Three nested listings: it cannot be left and taken up again, as the library's can after every solution. */
size_t peer_join(void *st, const char *k, size_t len)
{
    const db *d = st;
    const store *s = &d->s;
    uint32_t x, y, z, visits;
    size_t found = 0;
    listing a = store_open(s, 0, d->p1, find(d, k, len));
    while (store_next(s, &a, UINT32_MAX, &x, &visits) == FOUND) {
        listing b = store_open(s, s->st[x].part[0], d->p2, 0);
        while (store_next(s, &b, UINT32_MAX, &y, &visits) == FOUND) {
            uint32_t m = s->st[y].part[2];
            listing c = d->into ? store_open(s, 0, d->p3, m) : store_open(s, m, d->p3, 0);
            while (store_next(s, &c, UINT32_MAX, &z, &visits) == FOUND) found++;
        }
    }
    return found;
}

void peer_retract_begin(void *st) { (void)st; }

void peer_retract_end(void *st) { (void)st; }

int peer_retract(void *st, node a, node b, node c) { return store_retract(&((db *)st)->s, (uint32_t[3]){U(a), U(b), U(c)}) != 0; }

int peer_check(void *st)
{
    (void)st;
    return -1;
}

/* What is in use of the tables; the rest of the copy holds anything. */
void *peer_copy(void *st)
{
    const store *s = &((db *)st)->s;
    db *d = peer_open();
    store *t = &d->s;
    memcpy(t->res + 1, s->res + 1, s->R * sizeof *t->res);
    memcpy(t->st + 1, s->st + 1, s->T * sizeof *t->st);
    memcpy(t->index, s->index, s->R * sizeof *t->index);
    memcpy(t->text, s->text, s->B);
    t->R = s->R, t->T = s->T, t->B = s->B, t->reclaims = s->reclaims;
    return d;
}

void peer_retract_each(void *st, size_t n, size_t step)
{
    store *s = &((db *)st)->s;
    for (; n <= s->T; n += step) store_retract(s, s->st[n].part);
}

size_t peer_reclaim(void *st)
{
    store *s = &((db *)st)->s;
    if (!store_reclaim(s)) abort();
    return s->T;
}

size_t peer_walk(void *st, node p)
{
    const store *s = &((db *)st)->s;
    listing l = store_open(s, 0, U(p), 0);
    uint32_t n, visits;
    return store_next(s, &l, UINT32_MAX, &n, &visits) == ENDED ? visits : 0;
}

/* What a caller must lend for exactly this content. */
size_t peer_bytes(void *st)
{
    const store *s = &((db *)st)->s;
    return s->T * sizeof *s->st + s->R * (sizeof *s->res + sizeof *s->index) + s->B;
}
