/* Paper 01's chained store, with the names by their beginning, the live counts, the reclaim and the file of paper 02, in plain C: what this
 * structure can do at best. Nothing of it is proved. */
#ifndef STORE_H
#define STORE_H

#include <stddef.h>
#include <stdint.h>

enum { MAX_RESOURCES = 65535, MAX_STATEMENTS = 65535, MAX_TEXT = 1048576, MAX_RECLAIMS = 65535 };

/* The records' widths are these structs' sizes, so a word more is a member more. */
typedef struct { uint32_t first[3], count[3], offset, kind, live[3]; } resource;
typedef struct { uint32_t part[3], next[3], retracted; } statement;

typedef struct {
    resource *res; /* lent; records from 1, record 0 is not used */
    statement *st;
    uint32_t *index;
    char *text;
    uint32_t R, T, B, reclaims, cap_R, cap_T, cap_B;
} store;

typedef struct { uint32_t part[3], place, next, reclaims; } listing; /* place 3: none bound */
enum { FOUND, ENDED, SPENT };

/* A name is tested as spelled, then searched for and stored without the string ending. */
uint32_t store_find(const store *s, const char *name, uint32_t len); /* 0 if absent or malformed */
uint32_t store_enter(store *s, const char *name, uint32_t len);      /* 0 if refused */
/* The total, 0 if refused; the numbers of the names that begin so, in byte order, as many as there are words for. */
uint32_t store_names(const store *s, const char *prefix, uint32_t len, uint32_t *numbers, uint32_t words);
uint32_t store_assert(store *s, const uint32_t t[3]);                /* 0 if refused */
uint32_t store_retract(store *s, const uint32_t t[3]);               /* 0 if not live */
/* The file's length, 0 if refused or empty: the live statements' lines in rising order. `work` has T words, and is not cleared. */
size_t store_export(const store *s, char *out, size_t room, uint32_t *work);
int store_reclaim(store *s);                                         /* 0 if refused; soundness is not checked */
listing store_open(const store *s, uint32_t a, uint32_t b, uint32_t c);
int store_next(const store *s, listing *l, uint32_t budget, uint32_t *found, uint32_t *visits);

#endif
