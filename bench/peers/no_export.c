/* For peers that write no N-Triples. */
#include "bench.h"

const int peer_sorts = 0;

size_t peer_export(void *st, char *out, size_t room)
{
    (void)st, (void)out, (void)room;
    return 0;
}
