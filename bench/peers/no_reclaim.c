/* For peers that give room back by themselves: no reclaim is offered, nor a walk along what is retracted. */
#include "bench.h"

void *peer_copy(void *st)
{
    (void)st;
    return NULL;
}

void peer_retract_each(void *st, size_t n, size_t step) { (void)st, (void)n, (void)step; }

size_t peer_reclaim(void *st)
{
    (void)st;
    return 0;
}

size_t peer_walk(void *st, node p)
{
    (void)st, (void)p;
    return 0;
}
