/* The join with its patterns in any order, for peers that list and do not join: nested loops as a caller writes them, each listing opened with
 * what the loops around it have bound. No pattern has a variable twice. A peer defines before this:
 *
 *   VALUE, rows                   a resource, 0 for none; a listing
 *   rows_open(d, r, depth, t)     listing r of what matches the three of t, with depth loops around it
 *   rows_next(r, t)               1 and the next match, or 0
 *   rows_close(r)
 *   number_of(v)                  a resource's number as entered, 0 if the peer keeps none
 */
#include "patterns.h"
#include <stdint.h>

typedef struct {
    const char *pattern[4]; /* terms, outermost first, then NULL */
    VALUE bound[128];       /* by term: K, the predicates, and what is bound of the variables */
} loops;

static void solve(db *d, loops *l, int depth, answer *a)
{
    if (!l->pattern[depth]) {
        a->solutions++;
        a->sum += number_of(l->bound['x']) + 3 * number_of(l->bound['y']) + 5 * number_of(l->bound['z']);
        return;
    }
    VALUE given[3], t[3], *at[3];
    for (int i = 0; i < 3; i++) {
        at[i] = &l->bound[(int)l->pattern[depth][i]];
        given[i] = *at[i];
    }
    rows r;
    rows_open(d, &r, depth, given);
    while (rows_next(&r, t)) {
        for (int i = 0; i < 3; i++) *at[i] = t[i];
        solve(d, l, depth + 1, a);
    }
    rows_close(&r);
    for (int i = 0; i < 3; i++) *at[i] = given[i];
}

int peer_order_open(void *st, const char *order, int way)
{
    ((db *)st)->order = order;
    return way == AS_GIVEN;
}

void peer_order(void *st, const char *k, size_t len, answer *a)
{
    db *d = st;
    node kn = peer_node(st, k, len);
    loops l = {.bound = {['K'] = (VALUE)(uintptr_t)kn, ['1'] = d->p1, ['2'] = d->p2, ['3'] = d->p3}};
    for (int i = 0; i < 3; i++) l.pattern[i] = pattern_terms(d->into, d->order[i]);
    solve(d, &l, 0, a);
    peer_node_free(st, kn);
}
