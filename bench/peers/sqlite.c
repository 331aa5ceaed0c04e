/* SQLite in memory: a table of names, triples WITHOUT ROWID and two covering indices. The C reference's line reader feeds it. */
#include "bench.h"
#include "nt.h"
#include <sqlite3.h>
#include <stdio.h>
#include <stdlib.h>
#include <string.h>

const char *peer_name = "sqlite";

enum { FIND, ENTER, ASSERT, HAS, BY_S, BY_P, BY_O, BY_SP, BY_PO, BY_SO, RETRACT, NAMES, JOIN, PREPARED };

static const char *const sql[JOIN] = {
    "SELECT id FROM name WHERE text=?1",
    "INSERT INTO name(text) VALUES(?1)",
    "INSERT OR IGNORE INTO t VALUES(?1,?2,?3)",
    "SELECT 1 FROM t WHERE s=?1 AND p=?2 AND o=?3",
    "SELECT s,p,o FROM t WHERE s=?1",
    "SELECT s,p,o FROM t WHERE p=?2",
    "SELECT s,p,o FROM t WHERE o=?3",
    "SELECT s,p,o FROM t WHERE s=?1 AND p=?2",
    "SELECT s,p,o FROM t WHERE p=?2 AND o=?3",
    "SELECT s,p,o FROM t WHERE s=?1 AND o=?3",
    "DELETE FROM t WHERE s=?1 AND p=?2 AND o=?3",
    "SELECT id FROM name WHERE text>=?1 AND text<?2 ORDER BY text",
};

typedef struct {
    sqlite3 *db;
    sqlite3_stmt *q[PREPARED];
    size_t before; /* memory in use before this store */
} db;

static void must(db *d, int result)
{
    if (result == SQLITE_OK || result == SQLITE_DONE || result == SQLITE_ROW) return;
    fprintf(stderr, "sqlite: %s\n", sqlite3_errmsg(d->db));
    exit(1);
}

static void run(db *d, const char *statements) { must(d, sqlite3_exec(d->db, statements, NULL, NULL, NULL)); }

void *peer_open(void)
{
    db *d = calloc(1, sizeof *d);
    d->before = (size_t)sqlite3_memory_used();
    must(d, sqlite3_open(":memory:", &d->db));
    run(d, "PRAGMA journal_mode=OFF; PRAGMA synchronous=OFF; PRAGMA temp_store=MEMORY;"
           "CREATE TABLE name(id INTEGER PRIMARY KEY, text TEXT NOT NULL UNIQUE);"
           "CREATE TABLE t(s INT, p INT, o INT, PRIMARY KEY(s,p,o)) WITHOUT ROWID;"
           "CREATE INDEX pos ON t(p,o,s); CREATE INDEX osp ON t(o,s,p);");
    for (int i = 0; i < JOIN; i++) must(d, sqlite3_prepare_v2(d->db, sql[i], -1, &d->q[i], NULL));
    return d;
}

void peer_close(void *st)
{
    db *d = st;
    for (int i = 0; i < PREPARED; i++) sqlite3_finalize(d->q[i]);
    sqlite3_close(d->db);
    free(d);
}

size_t peer_parse(const char *text, size_t len)
{
    (void)text, (void)len;
    return 0;
}

static sqlite3_int64 find(db *d, const char *name, size_t len)
{
    sqlite3_stmt *q = d->q[FIND];
    sqlite3_bind_text(q, 1, name, (int)nt_canonical(name, len), SQLITE_STATIC);
    sqlite3_int64 id = sqlite3_step(q) == SQLITE_ROW ? sqlite3_column_int64(q, 0) : 0;
    sqlite3_reset(q);
    return id;
}

static sqlite3_int64 enter(db *d, const char *name, size_t len)
{
    sqlite3_int64 id = find(d, name, len);
    if (id) return id;
    sqlite3_stmt *q = d->q[ENTER];
    sqlite3_bind_text(q, 1, name, (int)len, SQLITE_STATIC);
    must(d, sqlite3_step(q));
    sqlite3_reset(q);
    return sqlite3_last_insert_rowid(d->db);
}

size_t peer_load(void *st, const char *text, size_t len)
{
    db *d = st;
    size_t pos = 0, n = 0;
    run(d, "BEGIN");
    for (;;) {
        nt_line l = nt_read(text, len, &pos);
        if (l.what == NT_END) break;
        if (l.what != NT_TRIPLE) continue;
        sqlite3_int64 id[3];
        for (int i = 0; i < 3; i++) id[i] = enter(d, l.t[i].at, l.t[i].len);
        for (int i = 0; i < 3; i++) sqlite3_bind_int64(d->q[ASSERT], i + 1, id[i]);
        must(d, sqlite3_step(d->q[ASSERT]));
        n += (size_t)sqlite3_changes(d->db);
        sqlite3_reset(d->q[ASSERT]);
    }
    run(d, "COMMIT; ANALYZE");
    return n;
}

node peer_node(void *st, const char *name, size_t len) { return (node)(size_t)find(st, name, len); }

void peer_node_free(void *st, node n) { (void)st, (void)n; }

static size_t rows(db *d, int which, node s, node p, node o)
{
    sqlite3_stmt *q = d->q[which];
    size_t n = 0;
    if (s) sqlite3_bind_int64(q, 1, (sqlite3_int64)(size_t)s);
    if (p) sqlite3_bind_int64(q, 2, (sqlite3_int64)(size_t)p);
    if (o) sqlite3_bind_int64(q, 3, (sqlite3_int64)(size_t)o);
    int result;
    while ((result = sqlite3_step(q)) == SQLITE_ROW) n += sqlite3_column_int64(q, 0) != 0;
    must(d, result);
    sqlite3_reset(q);
    return n;
}

/* A range of the index of names: no name has a byte above 126, so those that begin so are below the beginning with 127 after it. */
size_t peer_names(void *st, const char *prefix, size_t len)
{
    db *d = st;
    char above[256];
    memcpy(above, prefix, len);
    above[len] = 127;
    sqlite3_bind_text(d->q[NAMES], 1, prefix, (int)len, SQLITE_STATIC);
    sqlite3_bind_text(d->q[NAMES], 2, above, (int)len + 1, SQLITE_STATIC);
    return rows(d, NAMES, NULL, NULL, NULL);
}

int peer_contains(void *st, node s, node p, node o) { return rows(st, HAS, s, p, o) != 0; }

size_t peer_list(void *st, node s, node p, node o)
{
    int which = s ? p ? BY_SP : o ? BY_SO : BY_S : p ? o ? BY_PO : BY_P : BY_O;
    return rows(st, which, s, p, o);
}

void peer_join_open(void *st, const join_shape *j)
{
    db *d = st;
    char text[512];
    snprintf(text, sizeof text,
             "SELECT a.s,b.o,c.%s FROM t a, t b, t c WHERE a.p=%lld AND a.o=?1 AND b.s=a.s AND b.p=%lld AND c.p=%lld AND c.%s=b.o",
             j->into ? "s" : "o", (long long)find(d, j->p1, strlen(j->p1)), (long long)find(d, j->p2, strlen(j->p2)),
             (long long)find(d, j->p3, strlen(j->p3)), j->into ? "o" : "s");
    must(d, sqlite3_prepare_v2(d->db, text, -1, &d->q[JOIN], NULL));
}

size_t peer_join(void *st, const char *k, size_t len) { return rows(st, JOIN, peer_node(st, k, len), NULL, NULL); }

void peer_retract_begin(void *st) { run(st, "BEGIN"); }

void peer_retract_end(void *st) { run(st, "COMMIT"); }

int peer_retract(void *st, node s, node p, node o)
{
    db *d = st;
    rows(d, RETRACT, s, p, o);
    return sqlite3_changes(d->db);
}

int peer_check(void *st)
{
    (void)st;
    return -1;
}

size_t peer_bytes(void *st) { return (size_t)sqlite3_memory_used() - ((db *)st)->before; }
