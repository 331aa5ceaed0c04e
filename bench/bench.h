/* What a peer supplies, and what bench.c lends it. */
#ifndef BENCH_H
#define BENCH_H

#include <stddef.h>

/* A peer's handle for a name; NULL stands for any. */
typedef void *node;

/* Three patterns: (?x p1 K), (?x p2 ?y), and (?y p3 ?z), or (?z p3 ?y) where `into` is 1. */
typedef struct {
    const char *p1, *p2, *p3;
    int into;
} join_shape;

/* The folder of the workloads, where a peer may keep a file of its own. */
extern const char *bench_folder;

extern const char *peer_name;
void *peer_open(void);
void peer_close(void *st);
size_t peer_parse(const char *text, size_t len);          /* triples read, nothing stored; 0 if not offered */
size_t peer_load(void *st, const char *text, size_t len); /* statements stored */
node peer_node(void *st, const char *name, size_t len);   /* NULL if the store does not have it */
void peer_node_free(void *st, node n);
size_t peer_names(void *st, const char *prefix, size_t len); /* names that begin so, by byte order, the number of each one read; 0 for the
                                                                empty beginning: not offered */
int peer_contains(void *st, node s, node p, node o);
size_t peer_list(void *st, node s, node p, node o);       /* matches, the subject of each one read */
void peer_join_open(void *st, const join_shape *j);
size_t peer_join(void *st, const char *k, size_t len);    /* solutions of the join for one K */
size_t peer_export(void *st, char *out, size_t room);     /* bytes of the statements' lines; 0: not offered */
extern const int peer_sorts;                              /* whether these lines rise */
int peer_retract(void *st, node s, node p, node o);       /* 1 if it was there */
void peer_retract_begin(void *st);                        /* around many retractions */
void peer_retract_end(void *st);
int peer_check(void *st);                                 /* 1 sound, 0 not, -1 not offered */
void *peer_copy(void *st);                                /* a store with the same content; NULL: no reclaim is offered */
void peer_retract_each(void *st, size_t n, size_t step);  /* statements n, n + step, ...; this and the next only with a copy */
size_t peer_reclaim(void *st);                            /* statements left */
size_t peer_walk(void *st, node p);                       /* visits of the next call that ends (? p ?); 0: it did not. Only with a copy */
size_t peer_bytes(void *st);                              /* memory by its own account; 0: what malloc gave */

#endif
