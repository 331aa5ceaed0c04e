/* Paper 01's tables, with the names by their beginning, the live counts, the reclaim and the file of paper 02, in plain C.
 *
 * By itself it tests only what an answer depends on: refusals 2, 3, 4, 5, 11 and 14. With -DREFUSALS it makes the tests of refusals 1, 6, 7, 9
 * and 13 as well, by abort, so that what they cost can be told from what the language costs. Reclaim's 9, which is the whole soundness
 * check, is not among them.
 */
#include "store.h"
#include "nt.h"
#include <stdlib.h>
#include <string.h>

#ifdef REFUSALS
#define REFUSE(x) do { if (__builtin_expect(!!(x), 0)) abort(); } while (0)
#else
#define REFUSE(x) do { } while (0)
#endif

/* Refusal 1. */
static inline int over(const store *s)
{
    return s->R > MAX_RESOURCES || s->R > s->cap_R || s->T > MAX_STATEMENTS || s->T > s->cap_T || s->B > MAX_TEXT || s->B > s->cap_B
        || s->reclaims > MAX_RECLAIMS;
}

/* <0, 0, >0 as the stored name is below, equal to or above the given one; neither has a zero byte inside. */
static int compare(const char *stored, const char *name, uint32_t len)
{
    for (uint32_t i = 0; i < len; i++) {
        int d = (unsigned char)stored[i] - (unsigned char)name[i];
        if (d) return d;
    }
    return stored[len] != 0;
}

/* Where the name stands in the index, or would. */
static uint32_t position(const store *s, const char *name, uint32_t len, int *hit)
{
    uint32_t lo = 0, hi = s->R;
    *hit = 0;
    while (lo < hi) {
        uint32_t mid = lo + (hi - lo) / 2, r = s->index[mid];
        REFUSE(r == 0 || r > s->R || s->res[r].offset >= s->B);
        int d = compare(s->text + s->res[r].offset, name, len);
        if (d == 0) { *hit = 1; return mid; }
        if (d < 0) lo = mid + 1; else hi = mid;
    }
    return lo;
}

uint32_t store_find(const store *s, const char *name, uint32_t len)
{
    int hit;
    REFUSE(over(s));
    if (!nt_kind(name, len)) return 0;
    uint32_t at = position(s, name, (uint32_t)nt_canonical(name, len), &hit);
    return hit ? s->index[at] : 0;
}

uint32_t store_enter(store *s, const char *name, uint32_t len)
{
    int hit;
    REFUSE(over(s));
    int kind = nt_kind(name, len);
    if (!kind) return 0;
    len = (uint32_t)nt_canonical(name, len);
    uint32_t at = position(s, name, len, &hit);
    if (hit) return s->index[at];
    if (s->R == s->cap_R || s->B + len + 1 > s->cap_B) return 0;
    uint32_t r = ++s->R;
    memmove(s->index + at + 1, s->index + at, (r - 1 - at) * sizeof *s->index);
    s->index[at] = r;
    s->res[r] = (resource){.offset = s->B, .kind = (uint32_t)kind};
    memcpy(s->text + s->B, name, len);
    s->text[s->B + len] = 0;
    s->B += len + 1;
    return r;
}

/* <0, 0, >0 as the stored name is below those that begin so, begins so, or is above them. Its closing zero is below any byte. */
static int compare_beginning(const char *stored, const char *prefix, uint32_t len)
{
    for (uint32_t i = 0; i < len; i++) {
        if (!stored[i]) return -1;
        int d = (unsigned char)stored[i] - (unsigned char)prefix[i];
        if (d) return d;
    }
    return 0;
}

/* Where in the index, from `lo` to `*top`, the names that begin so start, or, where `after` is 1, end. The lowest name met above them is
 * the new top, so that the second search looks no further than the first has left open. */
static uint32_t boundary(const store *s, const char *prefix, uint32_t len, uint32_t lo, uint32_t *top, int after)
{
    uint32_t hi = *top;
    while (lo < hi) {
        uint32_t mid = lo + (hi - lo) / 2, r = s->index[mid];
        REFUSE(r == 0 || r > s->R || s->res[r].offset >= s->B);
        int d = compare_beginning(s->text + s->res[r].offset, prefix, len);
        if (d < after) lo = mid + 1; else hi = mid;
        if (d > 0) *top = mid;
    }
    return lo;
}

uint32_t store_names(const store *s, const char *prefix, uint32_t len, uint32_t *numbers, uint32_t words)
{
    REFUSE(over(s));
    if (len > MAX_NAME) return 0;
    uint32_t top = s->R, first = boundary(s, prefix, len, 0, &top, 0), total = boundary(s, prefix, len, first, &top, 1) - first;
    memcpy(numbers, s->index + first, (total < words ? total : words) * sizeof *numbers);
    return total;
}

/* The chain of the bound place with least count. */
static inline listing pick(const store *s, uint32_t a, uint32_t b, uint32_t c)
{
    listing l = {{a, b, c}, 3, s->T, s->reclaims};
    uint32_t least = UINT32_MAX;
    for (uint32_t p = 0; p < 3; p++) {
        if (!l.part[p]) continue;
        const resource *r = &s->res[l.part[p]];
        REFUSE(r->count[p] > s->T || r->first[p] > s->T);
        if (r->count[p] < least) { least = r->count[p]; l.place = p; l.next = r->first[p]; }
    }
    return l;
}

listing store_open(const store *s, uint32_t a, uint32_t b, uint32_t c)
{
    REFUSE(over(s) || a > s->R || b > s->R || c > s->R);
    return pick(s, a, b, c);
}

/* The next record of the walk after record n of the listing's chain. */
static inline uint32_t follow(const store *s, const listing *l, uint32_t n)
{
    const statement *t = &s->st[n];
    REFUSE(t->part[0] - 1 >= s->R || t->part[1] - 1 >= s->R || t->part[2] - 1 >= s->R || t->retracted > 1);
    if (l->place == 3) return n - 1;
    REFUSE(t->part[l->place] != l->part[l->place] || t->next[l->place] >= n);
    return t->next[l->place];
}

/* Refusal 6. */
static inline int bad_place(const store *s, const listing *l)
{
    if (l->part[0] > s->R || l->part[1] > s->R || l->part[2] > s->R || l->place > 3 || l->next > s->T) return 1;
    if (l->place == 3) return l->part[0] || l->part[1] || l->part[2];
    return !l->part[l->place] || (l->next && s->st[l->next].part[l->place] != l->part[l->place]);
}

int store_next(const store *s, listing *l, uint32_t budget, uint32_t *found, uint32_t *visits)
{
    REFUSE(over(s) || l->reclaims != s->reclaims || bad_place(s, l) || budget == 0);
    uint32_t n = l->next, v = 0;
    int answer = ENDED;
    while (n) {
        if (v == budget) { answer = SPENT; break; }
        const statement *t = &s->st[n];
        uint32_t at = n;
        n = follow(s, l, n);
        v++;
        if (!t->retracted && (!l->part[0] || t->part[0] == l->part[0]) && (!l->part[1] || t->part[1] == l->part[1])
            && (!l->part[2] || t->part[2] == l->part[2])) {
            *found = at;
            answer = FOUND;
            break;
        }
    }
    l->next = n;
    *visits = v;
    return answer;
}

/* The first record with the triple, live or not, on the chain a listing would take. Live counts are tested here, a listing does not look. */
static uint32_t walk(const store *s, const uint32_t t[3])
{
    listing l = pick(s, t[0], t[1], t[2]);
    for (int p = 0; p < 3; p++) REFUSE(s->res[t[p]].live[p] > s->res[t[p]].count[p]);
    for (uint32_t n = l.next; n; n = follow(s, &l, n)) {
        const uint32_t *q = s->st[n].part;
        if (q[0] == t[0] && q[1] == t[1] && q[2] == t[2]) return n;
    }
    return 0;
}

/* Refusal 4. */
static inline int unknown(const store *s, const uint32_t t[3])
{
    REFUSE(over(s));
    return t[0] - 1 >= s->R || t[1] - 1 >= s->R || t[2] - 1 >= s->R;
}

/* The triple as the next record, live and at the head of its chains. It may stand in that record already, or in a later one. */
static inline uint32_t append(store *s, const uint32_t t[3])
{
    uint32_t n = ++s->T;
    statement *to = &s->st[n];
    resource *res = s->res;
#pragma GCC unroll 3
    for (int p = 0; p < 3; p++) {
        resource *r = &res[t[p]];
        to->part[p] = t[p];
        to->next[p] = r->first[p];
        r->first[p] = n;
        r->count[p]++;
        r->live[p]++;
    }
    to->retracted = 0;
    return n;
}

uint32_t store_assert(store *s, const uint32_t t[3])
{
    if (unknown(s, t)) return 0;
    REFUSE(s->res[t[0]].kind - 1 > 2 || s->res[t[1]].kind - 1 > 2 || s->res[t[2]].kind - 1 > 2);
    if (s->res[t[0]].kind == 3 || s->res[t[1]].kind != 1) return 0;
    uint32_t n = walk(s, t);
    if (n) {
        if (!s->st[n].retracted) return n;
        s->st[n].retracted = 0;
        for (int p = 0; p < 3; p++) s->res[t[p]].live[p]++;
        return n;
    }
    if (s->T == s->cap_T) return 0;
    return append(s, t);
}

uint32_t store_retract(store *s, const uint32_t t[3])
{
    if (unknown(s, t)) return 0;
    uint32_t n = walk(s, t);
    if (!n || s->st[n].retracted) return 0;
    for (int p = 0; p < 3; p++) REFUSE(s->res[t[p]].live[p] == 0);
    s->st[n].retracted = 1;
    for (int p = 0; p < 3; p++) s->res[t[p]].live[p]--;
    return n;
}

int store_reclaim(store *s)
{
    REFUSE(over(s));
    if (s->reclaims == MAX_RECLAIMS) return 0;
    for (resource *r = s->res + 1, *end = r + s->R; r < end; r++) *r = (resource){.offset = r->offset, .kind = r->kind};
    uint32_t before = s->T;
    s->T = 0;
    for (statement *t = s->st + 1, *end = t + before; t < end; t++)
        if (!t->retracted) append(s, t->part);
    memset(s->st + s->T + 1, 0, (before - s->T) * sizeof *s->st);
    s->reclaims++;
    return 1;
}

/* <0, 0, >0 as the line of statement a is below, equal to or above that of b. Two numbers are two names, and neither goes on with a blank:
 * a closing zero stands for the blank after it. */
static inline int compare_lines(const store *s, uint32_t a, uint32_t b)
{
    const statement *x = &s->st[a], *y = &s->st[b];
    for (int p = 0; p < 3; p++) {
        if (x->part[p] == y->part[p]) continue;
        const unsigned char *u = (const unsigned char *)s->text + s->res[x->part[p]].offset;
        const unsigned char *v = (const unsigned char *)s->text + s->res[y->part[p]].offset;
        while (*u == *v) u++, v++;
        return (*u ? *u : ' ') - (*v ? *v : ' ');
    }
    return 0;
}

/* Merge sort of n numbers; `spare` has room for as many. */
static void sort_lines(const store *s, uint16_t *numbers, uint16_t *spare, uint32_t n)
{
    if (n < 2) return;
    uint32_t mid = n / 2, i = 0, j = mid;
    sort_lines(s, numbers, spare, mid);
    sort_lines(s, numbers + mid, spare + mid, n - mid);
    for (uint32_t k = 0; k < n; k++)
        spare[k] = j == n || (i < mid && compare_lines(s, numbers[i], numbers[j]) <= 0) ? numbers[i++] : numbers[j++];
    memcpy(numbers, spare, n * sizeof *numbers);
}

/* A name and the blank after it. */
static inline char *put_name(const store *s, char *to, uint32_t r)
{
    const char *from = s->text + s->res[r].offset;
    while (*from) *to++ = *from++;
    *to++ = ' ';
    return to;
}

size_t store_export(const store *s, char *out, size_t room, uint32_t *work)
{
    REFUSE(over(s));
    size_t size = 0;
    for (uint32_t n = 1; n <= s->T; n++) {
        const statement *t = &s->st[n];
        REFUSE(t->part[0] - 1 >= s->R || t->part[1] - 1 >= s->R || t->part[2] - 1 >= s->R || t->retracted > 1);
        for (int p = 0; p < 3; p++) {
            uint32_t offset = s->res[t->part[p]].offset;
            (void)offset;
            REFUSE(offset >= s->B || !memchr(s->text + offset, 0, s->B - offset < MAX_NAME + 1 ? s->B - offset : MAX_NAME + 1));
        }
        if (t->retracted) continue;
        size += 5;
        for (int p = 0; p < 3; p++) size += strlen(s->text + s->res[t->part[p]].offset);
    }
    if (size > room) return 0;
    uint16_t *numbers = (uint16_t *)work, *spare = numbers + s->T;
    uint32_t live = 0;
    for (uint32_t n = 1; n <= s->T; n++)
        if (!s->st[n].retracted) numbers[live++] = (uint16_t)n;
    sort_lines(s, numbers, spare, live);
    char *to = out;
    for (uint32_t i = 0; i < live; i++) {
        for (int p = 0; p < 3; p++) to = put_name(s, to, s->st[numbers[i]].part[p]);
        *to++ = '.';
        *to++ = '\n';
    }
    return size;
}
