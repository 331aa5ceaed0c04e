/* LMDB: name to number, and the triples under three orders of key. The C reference's line reader feeds it. */
#include "bench.h"
#include "nt.h"
#include <lmdb.h>
#include <stdint.h>
#include <stdio.h>
#include <stdlib.h>
#include <string.h>
#include <unistd.h>

const char *peer_name = "lmdb";

enum { SPO, POS, OSP, ORDERS, DEPTHS = 4 };
static const int order[ORDERS][3] = {{0, 1, 2}, {1, 2, 0}, {2, 0, 1}};

typedef struct {
    char path[4096];
    MDB_env *env;
    MDB_txn *txn;
    MDB_dbi name, triples[ORDERS];
    MDB_cursor *cursor[DEPTHS][ORDERS]; /* depth 0 for a listing, 1 to 3 for a join */
    MDB_cursor *by_name;
    uint32_t names, p1, p2, p3;
    int into;
} db;

static void must(int result)
{
    if (!result) return;
    fprintf(stderr, "lmdb: %s\n", mdb_strerror(result));
    exit(1);
}

void *peer_open(void)
{
    db *d = calloc(1, sizeof *d);
    snprintf(d->path, sizeof d->path, "%s/lmdb-%d", bench_folder, (int)getpid());
    unlink(d->path);
    must(mdb_env_create(&d->env));
    must(mdb_env_set_mapsize(d->env, 1 << 28));
    must(mdb_env_set_maxdbs(d->env, 1 + ORDERS));
    must(mdb_env_open(d->env, d->path, MDB_NOSUBDIR | MDB_WRITEMAP | MDB_NOSYNC | MDB_NOMETASYNC | MDB_NOLOCK, 0644));
    return d;
}

void peer_close(void *st)
{
    db *d = st;
    if (d->txn) mdb_txn_abort(d->txn);
    mdb_env_close(d->env);
    unlink(d->path);
    free(d);
}

size_t peer_parse(const char *text, size_t len)
{
    (void)text, (void)len;
    return 0;
}

static void key(uint8_t k[12], int o, const uint32_t t[3])
{
    for (int i = 0; i < 3; i++) {
        uint32_t v = __builtin_bswap32(t[order[o][i]]);
        memcpy(k + 4 * i, &v, 4);
    }
}

static uint32_t find(db *d, const char *name, size_t len)
{
    MDB_val k = {nt_canonical(name, len), (void *)name}, v;
    uint32_t number = 0;
    if (!mdb_get(d->txn, d->name, &k, &v)) memcpy(&number, v.mv_data, 4);
    return number;
}

static uint32_t enter(db *d, const char *name, size_t len)
{
    uint32_t number = find(d, name, len);
    if (number) return number;
    d->names++;
    MDB_val k = {len, (void *)name}, v = {4, &d->names};
    must(mdb_put(d->txn, d->name, &k, &v, 0));
    return d->names;
}

size_t peer_load(void *st, const char *text, size_t len)
{
    db *d = st;
    size_t pos = 0, n = 0;
    static const char *const names[ORDERS] = {"spo", "pos", "osp"};
    must(mdb_txn_begin(d->env, NULL, 0, &d->txn));
    must(mdb_dbi_open(d->txn, "name", MDB_CREATE, &d->name));
    for (int o = 0; o < ORDERS; o++) must(mdb_dbi_open(d->txn, names[o], MDB_CREATE, &d->triples[o]));
    for (;;) {
        nt_line l = nt_read(text, len, &pos);
        if (l.what == NT_END) break;
        if (l.what != NT_TRIPLE) continue;
        uint32_t t[3];
        for (int i = 0; i < 3; i++) t[i] = enter(d, l.t[i].at, l.t[i].len);
        uint8_t bytes[12];
        MDB_val k = {12, bytes}, v = {0, ""};
        key(bytes, SPO, t);
        int result = mdb_put(d->txn, d->triples[SPO], &k, &v, MDB_NOOVERWRITE);
        if (result == MDB_KEYEXIST) continue;
        must(result);
        for (int o = POS; o <= OSP; o++) {
            key(bytes, o, t);
            must(mdb_put(d->txn, d->triples[o], &k, &v, 0));
        }
        n++;
    }
    must(mdb_txn_commit(d->txn));
    must(mdb_txn_begin(d->env, NULL, MDB_RDONLY, &d->txn));
    must(mdb_cursor_open(d->txn, d->name, &d->by_name));
    for (int i = 0; i < DEPTHS; i++)
        for (int o = 0; o < ORDERS; o++) must(mdb_cursor_open(d->txn, d->triples[o], &d->cursor[i][o]));
    return n;
}

#define U(n) ((uint32_t)(uintptr_t)(n))

node peer_node(void *st, const char *name, size_t len) { return (node)(uintptr_t)find(st, name, len); }

void peer_node_free(void *st, node n) { (void)st, (void)n; }

/* A walk over the names that begin so; no key may be empty, so the empty beginning is where the first one stands. */
size_t peer_names(void *st, const char *prefix, size_t len)
{
    db *d = st;
    MDB_val k = {len, (void *)prefix}, v;
    size_t n = 0;
    for (int op = len ? MDB_SET_RANGE : MDB_FIRST; !mdb_cursor_get(d->by_name, &k, &v, op); op = MDB_NEXT) {
        uint32_t number;
        if (k.mv_size < len || memcmp(k.mv_data, prefix, len)) break;
        memcpy(&number, v.mv_data, 4);
        n += number != 0;
    }
    return n;
}

/* A walk over the keys that begin with what is bound. */
typedef struct {
    MDB_cursor *cursor;
    uint8_t key[12];
    size_t bound;
    int order, op;
    uint32_t t[3];
} walk;

static void walk_open(db *d, walk *w, int depth, uint32_t s, uint32_t p, uint32_t o)
{
    w->t[0] = s, w->t[1] = p, w->t[2] = o;
    w->order = s ? (o && !p ? OSP : SPO) : p ? POS : OSP;
    w->bound = 4 * (size_t)(!!s + !!p + !!o);
    w->cursor = d->cursor[depth][w->order];
    key(w->key, w->order, w->t);
    w->op = MDB_SET_RANGE;
}

static int walk_next(walk *w)
{
    MDB_val k = {12, w->key}, v;
    if (mdb_cursor_get(w->cursor, &k, &v, w->op) || memcmp(k.mv_data, w->key, w->bound)) return 0;
    w->op = MDB_NEXT;
    for (int i = 0; i < 3; i++) {
        uint32_t x;
        memcpy(&x, (uint8_t *)k.mv_data + 4 * i, 4);
        w->t[order[w->order][i]] = __builtin_bswap32(x);
    }
    return 1;
}

int peer_contains(void *st, node s, node p, node o)
{
    db *d = st;
    uint32_t t[3] = {U(s), U(p), U(o)};
    uint8_t bytes[12];
    key(bytes, SPO, t);
    MDB_val k = {12, bytes}, v;
    return !mdb_cursor_get(d->cursor[0][SPO], &k, &v, MDB_SET);
}

size_t peer_list(void *st, node s, node p, node o)
{
    walk w;
    size_t n = 0;
    walk_open(st, &w, 0, U(s), U(p), U(o));
    while (walk_next(&w)) n += w.t[0] != 0;
    return n;
}

void peer_join_open(void *st, const join_shape *j)
{
    db *d = st;
    d->p1 = find(d, j->p1, strlen(j->p1));
    d->p2 = find(d, j->p2, strlen(j->p2));
    d->p3 = find(d, j->p3, strlen(j->p3));
    d->into = j->into;
}

size_t peer_join(void *st, const char *k, size_t len)
{
    db *d = st;
    walk a, b, c;
    size_t n = 0;
    walk_open(d, &a, 1, 0, d->p1, find(d, k, len));
    while (walk_next(&a)) {
        walk_open(d, &b, 2, a.t[0], d->p2, 0);
        while (walk_next(&b)) {
            if (d->into) walk_open(d, &c, 3, 0, d->p3, b.t[2]);
            else walk_open(d, &c, 3, b.t[2], d->p3, 0);
            while (walk_next(&c)) n++;
        }
    }
    return n;
}

/* The read transaction ends, and a write transaction takes its place. */
void peer_retract_begin(void *st)
{
    db *d = st;
    mdb_txn_abort(d->txn);
    must(mdb_txn_begin(d->env, NULL, 0, &d->txn));
}

void peer_retract_end(void *st)
{
    db *d = st;
    must(mdb_txn_commit(d->txn));
    d->txn = NULL;
}

int peer_retract(void *st, node s, node p, node o)
{
    db *d = st;
    uint32_t t[3] = {U(s), U(p), U(o)};
    uint8_t bytes[12];
    MDB_val k = {12, bytes};
    for (int i = 0; i < ORDERS; i++) {
        key(bytes, i, t);
        if (mdb_del(d->txn, d->triples[i], &k, NULL)) return 0;
    }
    return 1;
}

int peer_check(void *st)
{
    (void)st;
    return -1;
}

/* Pages in use, of the map. */
size_t peer_bytes(void *st)
{
    db *d = st;
    MDB_dbi all[1 + ORDERS] = {d->name, d->triples[SPO], d->triples[POS], d->triples[OSP]};
    size_t pages = 0;
    MDB_stat s;
    for (int i = 0; i < 1 + ORDERS; i++) {
        must(mdb_stat(d->txn, all[i], &s));
        pages += s.ms_branch_pages + s.ms_leaf_pages + s.ms_overflow_pages;
    }
    return pages * 4096;
}
