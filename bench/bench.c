/* One round of measurements of one peer on one workload.
 *
 *     bench-PEER FOLDER WORKLOAD           times: lines "peer,workload,metric,value"
 *     bench-PEER FOLDER WORKLOAD --count   each operation once, for callgrind: a dump named after the metric around each, and the units done
 *
 * Metrics are nanoseconds for each unit named in `report.py`; a metric `sum-X` is what operation X counted, which must be the same for every
 * peer. FOLDER has WORKLOAD.nt and WORKLOAD.q as gen.py wrote them.
 */
#define _GNU_SOURCE
#include "bench.h"
#include <malloc.h>
#include <stdint.h>
#include <stdio.h>
#include <stdlib.h>
#include <string.h>
#include <sys/resource.h>
#include <sys/wait.h>
#include <time.h>
#include <unistd.h>
#include <valgrind/callgrind.h>

/* 65,535 lines of three names of 255 bytes. */
#define FILE_ROOM (65535 * (size_t)(3 * 255 + 5))

enum { LOOKUP, JOIN, LIST_S, LIST_P, LIST_O, LIST_SP, LIST_PO, LIST_SO, NAMES, KINDS };
static const char *const tag[KINDS] = {"L", "J", "S", "P", "O", "SP", "PO", "SO", "B"};
static const char *const metric[KINDS] = {"lookup", "join", "list-s", "list-p", "list-o", "list-sp", "list-po", "list-so", "names"};

/* A question of the query file: its names, or the beginning of some; their handles in the store being measured; how many there are. */
typedef struct {
    char *name[3];
    size_t len[3];
    node n[3];
    int hit;
} question;

static struct {
    question *q;
    size_t n;
} group[KINDS];

const char *bench_folder;
static const char *workload;
static int counting;
static join_shape shape;
static char *walked; /* the predicate of the walk, in a workload that has one */

/* Processor time, not the clock's: what the machine gives to others is left out. */
static double now(void)
{
    struct timespec t;
    clock_gettime(CLOCK_PROCESS_CPUTIME_ID, &t);
    return (double)t.tv_sec + 1e-9 * (double)t.tv_nsec;
}

static void out(const char *what, double value)
{
    printf("%s,%s,%s,%.6g\n", peer_name, workload, what, value);
    fflush(stdout);
}

static void out_sum(const char *what, size_t sum)
{
    char m[40];
    snprintf(m, sizeof m, "sum-%s", what);
    out(m, (double)sum);
}

static char *slurp(const char *ext, size_t *len)
{
    char path[4096];
    snprintf(path, sizeof path, "%s/%s.%s", bench_folder, workload, ext);
    FILE *f = fopen(path, "rb");
    if (!f) { perror(path); exit(1); }
    fseek(f, 0, SEEK_END);
    *len = (size_t)ftell(f);
    rewind(f);
    char *b = malloc(*len + 1);
    if (fread(b, 1, *len, f) != *len) { perror(path); exit(1); }
    b[*len] = 0;
    fclose(f);
    return b;
}

/* Cuts the query file into the groups; the names stay where they are. */
static void read_questions(char *text, size_t len)
{
    size_t lines = 0;
    for (size_t i = 0; i < len; i++) lines += text[i] == '\n';
    for (int k = 0; k < KINDS; k++) group[k].q = calloc(lines, sizeof *group[k].q);
    char *rest, *rest2;
    for (char *l = strtok_r(text, "\n", &rest); l; l = strtok_r(NULL, "\n", &rest)) {
        char *f[5] = {0};
        int k = 0;
        for (char *x = strtok_r(l, "\t", &rest2); x && k < 5; x = strtok_r(NULL, "\t", &rest2)) f[k++] = x;
        if (!strcmp(f[0], "JOIN")) {
            shape = (join_shape){f[1], f[2], f[3], atoi(f[4])};
            continue;
        }
        if (!strcmp(f[0], "W")) {
            walked = f[1];
            continue;
        }
        for (int g = 0; g < KINDS; g++) {
            if (strcmp(f[0], tag[g])) continue;
            question *q = &group[g].q[group[g].n++];
            for (int i = 0; i < 3 && f[i + 1]; i++) {
                q->name[i] = f[i + 1];
                q->len[i] = strlen(f[i + 1]);
            }
            if (g == LOOKUP) q->hit = atoi(f[4]);
            if (g == NAMES) q->hit = atoi(f[2]);
        }
    }
}

static void handles(void *st, int kind)
{
    for (size_t i = 0; i < group[kind].n; i++) {
        question *q = &group[kind].q[i];
        for (int j = 0; j < 3; j++) q->n[j] = q->name[j] ? peer_node(st, q->name[j], q->len[j]) : NULL;
    }
}

static void free_handles(void *st, int kind)
{
    for (size_t i = 0; i < group[kind].n; i++)
        for (int j = 0; j < 3; j++)
            if (group[kind].q[i].n[j]) peer_node_free(st, group[kind].q[i].n[j]);
}

/* What is measured: each gives the units done. */
static void *st;
static char *nt;
static size_t nt_len;

static size_t do_parse(void) { return peer_parse(nt, nt_len); }
static size_t do_load(void) { return peer_load(st, nt, nt_len); }
static size_t do_check(void) { return (size_t)peer_check(st); }
static size_t do_reclaim(void) { return peer_reclaim(st); }
static char *file; /* room for the longest file, in pages that are there once it is written */
static size_t do_export(void) { return peer_export(st, file, FILE_ROOM); }
static size_t do_all_names(void) { return peer_names(st, "", 0); }

static size_t do_find(void)
{
    size_t n = 0;
    for (question *q = group[LOOKUP].q, *e = q + group[LOOKUP].n; q < e; q++)
        for (int j = 0; j < 3; j++) {
            node x = peer_node(st, q->name[j], q->len[j]);
            if (!x) exit(1);
            peer_node_free(st, x);
            n++;
        }
    return n;
}

static size_t do_retract(void)
{
    size_t n = 0;
    peer_retract_begin(st);
    for (question *q = group[LOOKUP].q, *e = q + group[LOOKUP].n; q < e; q++)
        if (q->hit) n += (size_t)peer_retract(st, q->n[0], q->n[1], q->n[2]);
    peer_retract_end(st);
    return n;
}

static node chain;
static size_t do_walk(void) { return peer_walk(st, chain); }

static int kind;
static size_t do_questions(void)
{
    size_t n = 0;
    for (question *q = group[kind].q, *e = q + group[kind].n; q < e; q++)
        switch (kind) {
        case LOOKUP: n += (size_t)peer_contains(st, q->n[0], q->n[1], q->n[2]); break;
        case JOIN: n += peer_join(st, q->name[0], q->len[0]); break;
        case LIST_S: n += peer_list(st, q->n[0], NULL, NULL); break;
        case LIST_P: n += peer_list(st, NULL, q->n[0], NULL); break;
        case LIST_O: n += peer_list(st, NULL, NULL, q->n[0]); break;
        case LIST_SP: n += peer_list(st, q->n[0], q->n[1], NULL); break;
        case LIST_PO: n += peer_list(st, NULL, q->n[0], q->n[1]); break;
        case LIST_SO: n += peer_list(st, q->n[0], NULL, q->n[1]); break;
        case NAMES: n += peer_names(st, q->name[0], q->len[0]); break;
        }
    return n;
}

/* Runs once: its seconds, or, where instructions are counted, 0 and a dump of what it took. */
static double once(const char *what, size_t (*f)(void), size_t *units)
{
    if (counting) {
        CALLGRIND_ZERO_STATS;
        *units = f();
        CALLGRIND_DUMP_STATS_AT(what);
        return 0;
    }
    double t = now();
    *units = f();
    return now() - t;
}

/* Whether there is a run after k of them: twice at least, then until 40 ms are spent; a long run stands alone. */
static int another(int k, double spent) { return k == 0 || (!counting && k < 20 && (k < 2 || spent < 0.04) && spent < 0.2); }

/* The least of several runs. */
static double least(const char *what, size_t (*f)(void), size_t *units)
{
    double best = 1e9, spent = 0;
    for (int k = 0; another(k, spent); k++) {
        double t = once(what, f, units);
        spent += t;
        if (t < best) best = t;
    }
    return best;
}

/* The same for what changes the store: every run has a copy of its own. */
static double least_on_copies(const char *what, size_t (*f)(void), size_t *units)
{
    void *kept = st;
    double best = 1e9, spent = 0;
    for (int k = 0; another(k, spent); k++) {
        st = peer_copy(kept);
        double t = once(what, f, units);
        peer_close(st);
        spent += t;
        if (t < best) best = t;
    }
    st = kept;
    return best;
}

static void report(const char *what, double seconds, size_t units) { out(what, counting ? (double)units : seconds * 1e9 / (double)units); }

static size_t in_use(void)
{
    struct mallinfo2 m = mallinfo2();
    return m.uordblks + m.hblkhd;
}

/* What the questions of a kind are to find, by the query file. */
static size_t expected(int k)
{
    size_t hits = 0;
    for (size_t i = 0; i < group[k].n; i++) hits += (size_t)group[k].q[i].hit;
    return hits;
}

/* Ends the run if a kind's questions found something else. */
static void as_expected(int k, size_t found)
{
    if (found == expected(k)) return;
    fprintf(stderr, "%s %s: %s found %zu, %zu expected\n", peer_name, workload, metric[k], found, expected(k));
    exit(1);
}

/* Reclaim, with none of the statements retracted, every second one, and all. A peer with a soundness check makes it first in every reclaim:
 * it is measured on the same store by itself. Of one without, the metric is what remains of a reclaim without the check. */
static void reclaims(size_t statements)
{
    static const char *const share[] = {"none", "half", "all"};
    int checks = peer_check(st) >= 0;
    size_t left, sound;
    for (size_t k = 0; k < 3; k++) {
        char what[20];
        if (k) peer_retract_each(st, k, 2);
        snprintf(what, sizeof what, "%s-%s", checks ? "reclaim" : "sweep", share[k]);
        double t = least_on_copies(what, do_reclaim, &left);
        report(what, t, statements);
        snprintf(what, sizeof what, "reclaim-%s", share[k]);
        out_sum(what, left);
        if (!checks) continue;
        snprintf(what, sizeof what, "check-%s", share[k]);
        t = least(what, do_check, &sound);
        report(what, t, statements);
    }
}

/* What `sort` takes with LC_ALL=C for the lines in the file, and the sorted ones in their place: the processor time of its process. */
static double sort_file(size_t size)
{
    char from[4096], to[4096];
    snprintf(from, sizeof from, "%s/%s.lines", bench_folder, workload);
    snprintf(to, sizeof to, "%s/%s.sorted", bench_folder, workload);
    FILE *f = fopen(from, "wb");
    if (!f || fwrite(file, 1, size, f) != size || fclose(f)) { perror(from); exit(1); }
    struct rusage r;
    int status;
    pid_t child = fork();
    if (child == 0) {
        setenv("LC_ALL", "C", 1);
        execlp("sort", "sort", "-o", to, from, (char *)NULL);
        _exit(127);
    }
    if (child < 0 || wait4(child, &status, 0, &r) != child) { perror("sort"); exit(1); }
    if (status) { fprintf(stderr, "sort: status %d\n", status); exit(1); }
    f = fopen(to, "rb");
    if (!f || fread(file, 1, size, f) != size || fclose(f)) { perror(to); exit(1); }
    remove(from);
    remove(to);
    return (double)(r.ru_utime.tv_sec + r.ru_stime.tv_sec) + 1e-6 * (double)(r.ru_utime.tv_usec + r.ru_stime.tv_usec);
}

/* The statements as lines. Where a peer's do not rise they are sorted, and then every peer's file is the same; but sord keeps the string
 * ending, so that its file with these is another. */
static void exports(size_t statements)
{
    file = malloc(FILE_ROOM);
    if (!file) { perror("malloc"); exit(1); }
    memset(file, 0, nt_len + 1);
    size_t size = do_export();
    if (size) {
        const char *what = peer_sorts ? "export" : "write";
        double t = least(what, do_export, &size);
        report(what, t, statements);
        if (!peer_sorts && !counting) {
            t = sort_file(size);
            report("sort", t, statements);
        }
        uint32_t sum = 0;
        for (size_t i = 0; i < size; i++) sum = (sum * 31 + (unsigned char)file[i]) % 999983;
        if (peer_sorts || strncmp(workload, "typed", 5)) {
            out_sum("file", sum);
            out_sum("export", size);
        }
    }
    free(file);
}

/* The one operation of a workload with a walk: a listing opened and one next call, on a store with every statement retracted. Loading and
 * retracting are long beside it: callgrind may be started with its instrumentation off, which begins here. */
static int walk(void)
{
    size_t visits;
    st = peer_open();
    size_t statements = peer_load(st, nt, nt_len);
    peer_retract_each(st, 1, 1);
    chain = peer_node(st, walked, strlen(walked));
    CALLGRIND_START_INSTRUMENTATION;
    double t = least("walk", do_walk, &visits);
    if (visits != statements) {
        fprintf(stderr, "%s %s: %zu visits, %zu expected\n", peer_name, workload, visits, statements);
        return 1;
    }
    report("walk", t, visits);
    out_sum("walk", visits);
    peer_node_free(st, chain);
    peer_close(st);
    return 0;
}

int main(int argc, char **argv)
{
    if (argc < 3) { fprintf(stderr, "usage: %s FOLDER WORKLOAD [--count]\n", argv[0]); return 2; }
    bench_folder = argv[1];
    workload = argv[2];
    counting = argc > 3 && !strcmp(argv[3], "--count");
    size_t len, units = 0, statements = 0;
    nt = slurp("nt", &nt_len);
    char *questions = slurp("q", &len);
    read_questions(questions, len);
    if (walked) return walk();

    double t = least("parse", do_parse, &units);
    if (units) {
        report("parse", t, units);
        out_sum("parse", units);
    }

    /* Load, and retract from the store that is then given up; the last one loaded is kept for the rest. */
    double load = 1e9, retract = 1e9, spent = 0;
    size_t bytes = 0, retracted = 0, hits = expected(LOOKUP);
    for (int k = 0;; k++) {
        malloc_trim(0);
        size_t before = in_use();
        st = peer_open();
        t = once("load", do_load, &statements);
        if (t < load) load = t;
        bytes = peer_bytes(st);
        if (!bytes) bytes = in_use() - before;
        if (k == 8 || (k && (counting || spent > 0.04))) break;
        spent += t;
        handles(st, LOOKUP);
        t = once("retract", do_retract, &retracted);
        if (t < retract) retract = t;
        free_handles(st, LOOKUP);
        peer_close(st);
    }
    report("load", load, statements);
    out_sum("load", statements);
    out("bytes", (double)bytes / (double)statements);
    report("retract", retract, hits);
    out_sum("retract", retracted);

    t = least("find", do_find, &units);
    report("find", t, units);
    int names = do_all_names() != 0;
    if (names) {
        t = least("names-all", do_all_names, &units);
        out_sum("names-all", units);
        report("names-all", t, units);
    }
    for (kind = 0; kind < KINDS; kind++) {
        if (kind == NAMES && !names) continue;
        if (kind == JOIN) peer_join_open(st, &shape);
        else if (kind != NAMES) handles(st, kind);
        t = least(metric[kind], do_questions, &units);
        if (kind == LOOKUP || kind == NAMES) as_expected(kind, units);
        out_sum(metric[kind], units);
        report(metric[kind], t, kind == LOOKUP || kind == JOIN || kind == NAMES ? group[kind].n : units);
    }
    if (peer_check(st) >= 0) {
        t = least("check", do_check, &units);
        if (units != 1) { fprintf(stderr, "%s %s: not sound\n", peer_name, workload); return 1; }
        report("check", t, statements);
    }
    exports(statements);
    void *copy = peer_copy(st);
    if (copy) {
        peer_close(copy);
        reclaims(statements);
    }
    peer_close(st);
    return 0;
}
