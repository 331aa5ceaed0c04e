/* Queries as paper 01 has them, three words a pattern, for the peers that take them: the library and the reference. */
#ifndef WORDS_H
#define WORDS_H

#include "patterns.h"
#include <stddef.h>
#include <stdint.h>

/* The words of up to six patterns, and which of them is K. */
typedef struct {
    uint32_t words[18];
    size_t len, k;
} query;

/* The patterns in an order, K left 0. Variable v is 2^31 + v: u to z are 0 to 5. */
static inline query query_of(const char *order, int into, const uint32_t p[3])
{
    query q = {.len = 0};
    for (; *order; order++)
        for (const char *t = pattern_terms(into, *order); *t; t++) {
            if (*t == 'K') q.k = q.len;
            q.words[q.len++] = *t == 'K' ? 0 : *t < 'u' ? p[*t - '1'] : 0x80000000u + (uint32_t)(*t - 'u');
        }
    return q;
}

/* What a solution adds to the sum: x + 3 y + 5 z. */
static inline size_t weight(const uint32_t *bound) { return (size_t)bound[3] + 3 * (size_t)bound[4] + 5 * (size_t)bound[5]; }

#endif
