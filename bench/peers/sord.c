/* serd's reader into a sord model, with the three indices that serve every pattern. */
#include "bench.h"
#include "term.h"
#include <serd/serd.h>
#include <sord/sord.h>

const char *peer_name = "serd+sord";
const int peer_sorts = 0;

typedef struct {
    SordWorld *world;
    SordModel *model;
    SordNode *p1, *p2, *p3;
    int into;
} db;

void *peer_open(void)
{
    db *d = calloc(1, sizeof *d);
    d->world = sord_world_new();
    d->model = sord_new(d->world, SORD_SPO | SORD_POS | SORD_OSP, false);
    return d;
}

void peer_close(void *st)
{
    db *d = st;
    sord_free(d->model);
    sord_world_free(d->world);
    free(d);
}

static SerdStatus count(void *n, SerdStatementFlags flags, const SerdNode *graph, const SerdNode *s, const SerdNode *p, const SerdNode *o,
                        const SerdNode *type, const SerdNode *lang)
{
    (void)flags, (void)graph, (void)s, (void)p, (void)o, (void)type, (void)lang;
    ++*(size_t *)n;
    return SERD_SUCCESS;
}

size_t peer_parse(const char *text, size_t len)
{
    (void)len;
    size_t n = 0;
    SerdReader *r = serd_reader_new(SERD_NTRIPLES, &n, NULL, NULL, NULL, count, NULL);
    serd_reader_set_strict(r, true);
    serd_reader_read_string(r, (const uint8_t *)text);
    serd_reader_free(r);
    return n;
}

size_t peer_load(void *st, const char *text, size_t len)
{
    (void)len;
    db *d = st;
    SerdEnv *env = serd_env_new(NULL);
    SerdReader *r = sord_new_reader(d->model, env, SERD_NTRIPLES, NULL);
    serd_reader_set_strict(r, true);
    serd_reader_read_string(r, (const uint8_t *)text);
    serd_reader_free(r);
    serd_env_free(env);
    return sord_num_quads(d->model);
}

node peer_node(void *st, const char *name, size_t len)
{
    db *d = st;
    term_parts p;
    term_split(name, len, &p);
    const uint8_t *text = (const uint8_t *)p.text;
    if (p.kind == '<') return sord_new_uri(d->world, text);
    if (p.kind == '_') return sord_new_blank(d->world, text);
    SordNode *type = p.type[0] ? sord_new_uri(d->world, (const uint8_t *)p.type) : NULL;
    SordNode *n = sord_new_literal(d->world, type, text, p.lang[0] ? p.lang : NULL);
    if (type) sord_node_free(d->world, type);
    return n;
}

void peer_node_free(void *st, node n) { sord_node_free(((db *)st)->world, n); }

/* Names are found by their hash, no order of them is kept. */
size_t peer_names(void *st, const char *prefix, size_t len)
{
    (void)st, (void)prefix, (void)len;
    return 0;
}

/* Where serd's writer puts its bytes. */
typedef struct {
    char *to;
    size_t left;
} sink;

static size_t put(const void *bytes, size_t n, void *to)
{
    sink *s = to;
    if (n > s->left) return 0;
    memcpy(s->to, bytes, n);
    s->to += n;
    s->left -= n;
    return n;
}

/* In the order of sord's first index. */
size_t peer_export(void *st, char *out, size_t room)
{
    db *d = st;
    sink s = {out, room};
    SerdEnv *env = serd_env_new(NULL);
    SerdWriter *w = serd_writer_new(SERD_NTRIPLES, SERD_STYLE_BULK, env, NULL, put, &s);
    sord_write(d->model, w, NULL);
    serd_writer_finish(w);
    serd_writer_free(w);
    serd_env_free(env);
    return room - s.left;
}

int peer_contains(void *st, node s, node p, node o) { return sord_ask(((db *)st)->model, s, p, o, NULL); }

size_t peer_list(void *st, node s, node p, node o)
{
    size_t n = 0;
    SordIter *i = sord_search(((db *)st)->model, s, p, o, NULL);
    for (; !sord_iter_end(i); sord_iter_next(i)) {
        SordQuad q;
        sord_iter_get(i, q);
        n += q[SORD_SUBJECT] != NULL;
    }
    sord_iter_free(i);
    return n;
}

void peer_join_open(void *st, const join_shape *j)
{
    db *d = st;
    d->p1 = peer_node(st, j->p1, strlen(j->p1));
    d->p2 = peer_node(st, j->p2, strlen(j->p2));
    d->p3 = peer_node(st, j->p3, strlen(j->p3));
    d->into = j->into;
}

size_t peer_join(void *st, const char *k, size_t len)
{
    db *d = st;
    SordNode *kn = peer_node(st, k, len);
    size_t n = 0;
    SordIter *a = sord_search(d->model, NULL, d->p1, kn, NULL);
    for (; !sord_iter_end(a); sord_iter_next(a)) {
        SordIter *b = sord_search(d->model, sord_iter_get_node(a, SORD_SUBJECT), d->p2, NULL, NULL);
        for (; !sord_iter_end(b); sord_iter_next(b)) {
            const SordNode *y = sord_iter_get_node(b, SORD_OBJECT);
            SordIter *c = d->into ? sord_search(d->model, NULL, d->p3, y, NULL) : sord_search(d->model, y, d->p3, NULL, NULL);
            for (; !sord_iter_end(c); sord_iter_next(c)) n++;
            sord_iter_free(c);
        }
        sord_iter_free(b);
    }
    sord_iter_free(a);
    sord_node_free(d->world, kn);
    return n;
}

void peer_retract_begin(void *st) { (void)st; }

void peer_retract_end(void *st) { (void)st; }

int peer_retract(void *st, node s, node p, node o)
{
    db *d = st;
    SordQuad q = {s, p, o, NULL};
    size_t before = sord_num_quads(d->model);
    sord_remove(d->model, q);
    return sord_num_quads(d->model) < before;
}

int peer_check(void *st)
{
    (void)st;
    return -1;
}

size_t peer_bytes(void *st)
{
    (void)st;
    return 0;
}
