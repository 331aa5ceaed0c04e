/* Lemontiller: a store of statements inside a test set, for C and C++.
 *
 * Every slice is a pointer and a length in elements: the pointer is aligned, and that many elements stand there. It may not be null,
 * also where the length is 0, except for the inline functions below: these do not look at the pointer of a length 0. Slices of one call
 * must not overlap where one of them is written. All memory is the caller's: it is lent for the duration of one call, nothing of it is
 * kept or freed, and no memory is asked for. Two calls on the same tables must not run at once where one of them writes tables (lt_enter,
 * lt_assert, lt_retract, lt_reclaim); reading calls may, each with its own cursor, reply, list, output and working words.
 *
 * The library is built for x86-64 Linux. A call takes less than 4096 bytes of stack, as kit/c/stack.c measures it; where the dynamic loader
 * binds memcpy, memmove or memset at its first call, it takes its own on top.
 *
 * Every store function begins with the same five slices:
 *   counters    LT_COUNTER_WORDS words: resources R, statements T, text bytes B, reclaims so far; all 0 for a fresh store, whose tables
 *               may hold anything
 *   resources   LT_RESOURCE_WORDS words a resource: first statement as subject, predicate, object; count as each; text offset; kind;
 *               live count as subject, predicate, object
 *   statements  LT_STATEMENT_WORDS words a statement: subject, predicate, object; next statement for each; flag, 1 if retracted
 *   index       1 word a resource, in rising byte order of name
 *   text        bytes: the names, each closed by a zero byte
 * Resources and statements are numbered from 1; 0 is none. How much a store holds follows from the lengths lent: whole records (and for
 * resources index words too), up to the limits below.
 *
 * BEWARE: in the pattern of lt_scan_open 0 is LT_ANY, and lt_find answers 0 for a name that is not there. Such a 0 handed on lists the
 * contacts of all relays for a relay that does not exist. For patterns take lt_store_number, which refuses a name that is not there, and
 * spell an open position LT_ANY. No other function takes 0 for any: it is LT_UNKNOWN_NUMBER, in the words of a query LT_BAD_QUERY.
 *
 * A retracted statement keeps its room, so that asserting it again gives it its old number, until lt_reclaim gives the room of all of
 * them back. Cursors carry the number of reclaims of the store that they were opened on. With any other number, also at the start and at
 * the end, they are LT_STALE_CURSOR and to be opened again. A cursor does not carry its store, nor a query's its words: with another store
 * or with other words the next call is LT_BAD_CURSOR where the cursor does not fit them, and otherwise goes on there.
 *
 * A store may change between the calls on a cursor. Live means live at the call:
 *   a scan      Its rest are the statements that were on its chain at the opening, all of them if nothing was bound, but for those passed;
 *               one is passed once the scan took it or one of a lower number. Next takes statements off the rest, the highest number
 *               first, one visit each, to the first live match, the budget or the end. So a statement retracted since the opening costs a
 *               visit, a revived one is found unless it was passed, and one that is new since the opening is never found.
 *   a query     Solutions are ordered by their statements, the first pattern's deciding first, higher numbers first. Answers come from
 *               the solutions that hold at the call, at or after the cursor's place. A statement that is new since a pattern's chain was
 *               entered is before the place in that chain, and is seen in chains entered later. Where an entered statement was retracted,
 *               the levels below it are left without a visit.
 *
 * How many live statements have a resource at a position is a word of its record: lt_store_live reads it, without a walk. On a sound store
 * it is the number of live statements there; the counts before it include retracted ones.
 *
 * The string ending is `^^<http://www.w3.org/2001/XMLSchema#string>`, exactly these 43 bytes: a literal is the same with it and without it,
 * so `"A"` typed either way is one resource. It counts among the LT_MAX_NAME bytes of a name, and is then dropped: no name of a sound
 * store has it.
 *
 * What a function gives back is an `lt_result`. Beside a refusal the reply's words are 0 (except LT_BAD_LINE, see lt_read_line), and
 * counters, cursor, tables, a list's words, output and working words stay as they were. LT_TOO_SHORT comes before every refusal, and
 * nothing at all is written with it. Words past those that counters, a reply or a cursor name, and past a list, bytes past a file and
 * working words past the first T keep their values.
 * The refusals of a function are tested in the order in which its sentence names them.
 *
 * The library has the functions on slices. After them stand inline functions on a `struct lt_store`, with structs for replies and cursors.
 */
#ifndef LEMONTILLER_H
#define LEMONTILLER_H

#include <stddef.h>
#include <stdint.h>

/* The version of this file, and its number as lt_version gives the library's. */
#define LT_VERSION "0.2.0"
#define LT_VERSION_MAJOR 0
#define LT_VERSION_MINOR 2
#define LT_VERSION_PATCH 0
#define LT_VERSION_NUMBER (LT_VERSION_MAJOR * UINT32_C(1000000) + LT_VERSION_MINOR * UINT32_C(1000) + LT_VERSION_PATCH)

/* A conversion as the language at hand spells it. */
#ifdef __cplusplus
#define LT_CAST(type, value) static_cast<type>(value)
#else
#define LT_CAST(type, value) ((type)(value))
#endif

#ifdef __cplusplus
extern "C" {
#endif

/* What a compiler that knows how to is told: that no pointer is null, and that a result must be looked at. */
#ifdef __GNUC__
#define LT_NOT_NULL __attribute__((nonnull))
#define LT_LOOK_AT __attribute__((warn_unused_result))
#else
#define LT_NOT_NULL
#define LT_LOOK_AT
#endif

/* Lengths have 64 bits, as in the library: where size_t has fewer, this is not compiled. */
typedef char lt_size_has_64_bits[sizeof(size_t) == sizeof(uint64_t) ? 1 : -1];

enum lt_result {
    LT_ANSWERED = 0,
    LT_CAPACITY = 1,           /* a counter exceeds its capacity, or the reclaims LT_MAX_RECLAIMS */
    LT_MALFORMED = 2,          /* a name that is not well formed, or over LT_MAX_NAME bytes; a name's beginning over LT_MAX_NAME bytes */
    LT_FULL = 3,               /* no room for one more */
    LT_UNKNOWN_NUMBER = 4,     /* a number that names nothing; for lt_store_number: a name that is not there */
    LT_KIND_NOT_PERMITTED = 5, /* a literal as subject, or a predicate that is no IRI */
    LT_BAD_CURSOR = 6,         /* a cursor with a number out of range, a chain that is no bound position, more levels than patterns,
                                  or a record that lacks the bound resource or does not match its pattern */
    LT_NO_BUDGET = 7,          /* a budget of 0 */
    LT_BAD_QUERY = 8,          /* words that are no query: not three a pattern, more than LT_MAX_PATTERNS patterns, or a word that
                                  is neither a resource's number nor a variable's */
    LT_DAMAGED = 9,            /* a word that a step needs is out of range; for lt_reclaim: the store is not sound */
    LT_BAD_LINE = 10,          /* bytes that are no line */
    LT_EXPORT_SPACE = 11,      /* output or working words too short for the file of the statements */
    LT_NO_TIMES = 12,          /* no match carries a time; no function gives it yet, nor 15 to 17 */
    LT_STALE_CURSOR = 13,      /* a cursor whose number of reclaims is not the counters' */
    LT_RECLAIM_LIMIT = 14,     /* a reclaim after LT_MAX_RECLAIMS of them */
    LT_BAD_PATH = 15,          /* a text that is no property path */
    LT_PATH_SPACE = 16,        /* working memory or answer space shorter than a path needs */
    LT_BAD_GROUP = 17,         /* no group of scans, or an allowance below the number not ended */
    LT_TOO_SHORT = 100         /* a lent counters, cursor or reply slice has fewer words than are named here */
};

/* The limits. Tables may be longer, the rest of them is then not used. Limits and widths are plain numbers: C++20 has no products of two
 * enums. */
#define LT_MAX_RESOURCES 65535
#define LT_MAX_STATEMENTS 65535
#define LT_MAX_TEXT 1048576 /* bytes of all names, a closing zero for each included */
#define LT_MAX_NAME 255     /* bytes of one name as it is spelled, its closing zero not included; and of a name's beginning */
#define LT_MAX_LINE (3 * LT_MAX_NAME + 5) /* bytes of a statement's line in a file: its names, three blanks, a dot, LF */
#define LT_MAX_RECLAIMS 65535
#define LT_MAX_PATTERNS 6 /* of a query, and so the levels of its cursor */
#define LT_VARIABLES 16   /* of a query: 0 to 15 */

/* Words of the lent counters and of one record. */
#define LT_COUNTER_WORDS 4
#define LT_RESOURCE_WORDS 11
#define LT_STATEMENT_WORDS 7

/* Where the words of a resource's record begin. First, count and live count are three words each, in the order of `lt_position`. */
#define LT_RESOURCE_FIRST 0
#define LT_RESOURCE_COUNT 3
#define LT_RESOURCE_OFFSET 6
#define LT_RESOURCE_KIND 7
#define LT_RESOURCE_LIVE 8
enum lt_position { LT_SUBJECT = 0, LT_PREDICATE = 1, LT_OBJECT = 2 };

/* An open position of a scan's pattern: any resource. It is 0, which is also what lt_find answers for a name that is not there. */
#define LT_ANY UINT32_C(0)

/* Words of a scan's cursor: subject, predicate, object (or LT_ANY), chain (an `lt_chain`), next statement or 0, reclaims; and of a scan's
 * reply. */
#define LT_CURSOR_WORDS 6
#define LT_SCAN_REPLY_WORDS 3

/* Words of a query's cursor: an `lt_place`, levels entered, reclaims, then chain and record for each level, zeros past those entered; and
 * of a query's reply: an `lt_step`, visits, the resource of each variable, 0 for one that the query does not use, all 0 unless found.
 * With the store's number of reclaims, a cursor whose first word is no `lt_place` is LT_BAD_CURSOR. LT_WITHIN with 0 levels is the start.
 * Of the words after the first only the reclaims count at the start and at the end, and within those past the levels entered are ignored.
 * The start is what lt_query_open writes; zeros are the start only in a store that was never reclaimed. */
#define LT_QUERY_CURSOR_WORDS (3 + 2 * LT_MAX_PATTERNS)
#define LT_QUERY_REPLY_WORDS (2 + LT_VARIABLES)

/* Words, of 64 bits, of a line's reply. */
#define LT_LINE_WORDS 8

/* What the words of replies, cursors and records say. */
enum lt_kind { LT_IRI = 1, LT_BLANK = 2, LT_LITERAL = 3 };
enum lt_chain { LT_BY_NONE = 0, LT_BY_SUBJECT = 1, LT_BY_PREDICATE = 2, LT_BY_OBJECT = 3 };
enum lt_place { LT_START = 0, LT_WITHIN = 1, LT_END = 2 };
enum lt_line_kind { LT_LINE_END = 0, LT_LINE_NOTHING = 1, LT_LINE_TRIPLE = 2 };
enum lt_asserted { LT_NEW = 1, LT_ALREADY = 2, LT_REVIVED = 3 };

/* What a next call did. Found: the reply holds one. Ended: no record remains, nor for further calls. Spent: `budget` records were
 * visited without one, and a record remains. After found and spent, call again with the same cursor for what follows, as long as the
 * store is not reclaimed. */
enum lt_step { LT_FOUND = 1, LT_ENDED = 2, LT_SPENT = 3 };

/* A query is three words a pattern: subject, predicate, object, each a resource's number or LT_VARIABLE(v), v below LT_VARIABLES. */
#define LT_FIRST_VARIABLE UINT32_C(0x80000000)
#define LT_VARIABLE(v) (LT_FIRST_VARIABLE + LT_CAST(uint32_t, v))

/* A text for what a function gave back. It is constant and need not be freed. */
static inline const char *lt_strerror(uint32_t result)
{
    switch (result) {
    case LT_ANSWERED: return "answered";
    case LT_CAPACITY: return "a counter exceeds its capacity";
    case LT_MALFORMED: return "the name is not well formed or too long";
    case LT_FULL: return "no room for one more";
    case LT_UNKNOWN_NUMBER: return "no such name or number";
    case LT_KIND_NOT_PERMITTED: return "a literal as subject, or a predicate that is no IRI";
    case LT_BAD_CURSOR: return "the cursor does not fit the store or the pattern";
    case LT_NO_BUDGET: return "a budget of 0";
    case LT_BAD_QUERY: return "the words are no query";
    case LT_DAMAGED: return "the tables are damaged";
    case LT_BAD_LINE: return "the line cannot be read";
    case LT_EXPORT_SPACE: return "the memory is too short for the file";
    case LT_NO_TIMES: return "no match carries a time";
    case LT_STALE_CURSOR: return "the cursor has another number of reclaims than the store";
    case LT_RECLAIM_LIMIT: return "no more reclaims";
    case LT_BAD_PATH: return "the text is no path";
    case LT_PATH_SPACE: return "the memory is too short for the path";
    case LT_BAD_GROUP: return "the scans are no group, or the allowance is below their number";
    case LT_TOO_SHORT: return "a lent slice is too short";
    default: return "not a result of the store";
    }
}

#define LT_STORE                                                                                     \
    const uint32_t *counters, size_t counters_len, const uint32_t *resources, size_t resources_len, \
        const uint32_t *statements, size_t statements_len, const uint32_t *index, size_t index_len, \
        const uint8_t *text, size_t text_len

/* The version of the library that is linked, major * 1000000 + minor * 1000 + patch. This file is that of the library where it is
 * LT_VERSION_NUMBER. */
uint32_t lt_version(void);

/* The kind of a name, or LT_MALFORMED, by the name as it is spelled. reply 1: an `lt_kind`. */
uint32_t lt_name_kind(const uint8_t *name, size_t name_len, uint32_t *reply, size_t reply_len) LT_NOT_NULL;

/* Reads the line at a position of a text. reply LT_LINE_WORDS: an `lt_line_kind`, position after, start and length in the text of subject,
 * predicate, object, which are 0 if there is no triple; the object's length is without the string ending. At the text's end, or past it,
 * the position stays. With LT_BAD_LINE: 0 (no `lt_line_kind` then: the line may well be followed by others), position after, the offset in
 * the line, as it is spelled, of the first byte that fits no line (the line's length if it stops short), zeros.
 * The lines read are those N-Triples whose terms are names: bytes 32 to 126 (and tabs between terms and in comments) alone, so no UTF-8; of
 * the escapes \" \\ \n \r and no other, so neither \u nor \t; labels of blank nodes without a colon; no empty IRI, no white space inside a
 * literal before its tag or datatype, no name over LT_MAX_NAME bytes. Other lines are LT_BAD_LINE. A label is a name as any other: one
 * label is one node in all that is entered into a store, also from several files. */
uint32_t lt_read_line(const uint8_t *text, size_t text_len, size_t at, uint64_t *reply, size_t reply_len) LT_NOT_NULL;

/* Whether the store is sound: every word of it is as entering, asserting, retracting and reclaiming leave it. reply 1: 1 or 0. It refuses
 * nothing. */
uint32_t lt_check(LT_STORE, uint32_t *reply, size_t reply_len) LT_NOT_NULL;

/* Finds a name, without the string ending. LT_CAPACITY, LT_MALFORMED (by the name as it is spelled), LT_DAMAGED. reply 2: its number, or
 * 0 (not for a pattern, where that is LT_ANY: see lt_store_number); its position in the index, from 0, where it stands or would stand, so
 * how many names are below it. Entering the name puts its number there. Where names or index are not sound, LT_DAMAGED is not certain:
 * number and position may also be 0 or any numbers up to R, beside a number the position is below R. */
uint32_t lt_find(LT_STORE, const uint8_t *name, size_t name_len, uint32_t *reply, size_t reply_len) LT_NOT_NULL;

/* Lists the resources whose names begin with `prefix`, 0 to LT_MAX_NAME bytes of any value, in rising byte order of name. LT_CAPACITY,
 * LT_MALFORMED if it is longer, LT_DAMAGED. reply 1: the total, how many there are; as many of the first ones as fit stand in `numbers`,
 * which may have any length and keeps its words past the list. The bytes are taken as they are, the string ending too. Where names or
 * index are not sound, LT_DAMAGED is not certain: the total may also be any number up to R, and the list any words. */
uint32_t lt_names_with_prefix(LT_STORE, const uint8_t *prefix, size_t prefix_len, uint32_t *numbers, size_t numbers_len, uint32_t *reply,
                              size_t reply_len) LT_NOT_NULL;

/* Enters a name: finds it, or gives it the next number and stores it without the string ending. LT_CAPACITY, LT_MALFORMED (by the name
 * as it is spelled), LT_DAMAGED, LT_FULL (by what is stored). reply 1: its number. Writes counters, resources, index, text; so the name may
 * not lie in the store's own text, as what lt_name tells does. Where names or index are not sound, LT_DAMAGED is not certain: the answer
 * may also be any number up to R, or R + 1; then the index, record R + 1 and text from B on are all of the tables that is written. */
uint32_t lt_enter(uint32_t *counters, size_t counters_len, uint32_t *resources, size_t resources_len, const uint32_t *statements,
                  size_t statements_len, uint32_t *index, size_t index_len, uint8_t *text, size_t text_len, const uint8_t *name,
                  size_t name_len, uint32_t *reply, size_t reply_len) LT_NOT_NULL;

/* The name of a resource's number, as it is stored. LT_CAPACITY, LT_UNKNOWN_NUMBER, LT_DAMAGED. reply 2: its start and length in the
 * text, which hold as long as the caller keeps the text. */
uint32_t lt_name(LT_STORE, uint32_t number, uint32_t *reply, size_t reply_len) LT_NOT_NULL;

/* Reads a statement. LT_CAPACITY, LT_UNKNOWN_NUMBER, LT_DAMAGED. reply 4: subject, predicate, object, 1 if it is retracted. */
uint32_t lt_statement(LT_STORE, uint32_t number, uint32_t *reply, size_t reply_len) LT_NOT_NULL;

/* Asserts a triple; a retracted one is revived and keeps its old number, but after a reclaim it is new. LT_CAPACITY, LT_UNKNOWN_NUMBER,
 * LT_DAMAGED for a kind, LT_KIND_NOT_PERMITTED, LT_DAMAGED (also for a live count above its count), LT_FULL. reply 2: an `lt_asserted`,
 * the statement's number. Writes counters, resources, statements. */
uint32_t lt_assert(uint32_t *counters, size_t counters_len, uint32_t *resources, size_t resources_len, uint32_t *statements,
                   size_t statements_len, const uint32_t *index, size_t index_len, const uint8_t *text, size_t text_len,
                   uint32_t subject, uint32_t predicate, uint32_t object, uint32_t *reply, size_t reply_len) LT_NOT_NULL;

/* Retracts a triple. LT_CAPACITY, LT_UNKNOWN_NUMBER, LT_DAMAGED (also for a live count above its count, or of 0 where the statement is
 * live). reply 1: the number of the statement that was live until now, or 0. Writes resources, statements. */
uint32_t lt_retract(const uint32_t *counters, size_t counters_len, uint32_t *resources, size_t resources_len, uint32_t *statements,
                    size_t statements_len, const uint32_t *index, size_t index_len, const uint8_t *text, size_t text_len,
                    uint32_t subject, uint32_t predicate, uint32_t object, uint32_t *reply, size_t reply_len) LT_NOT_NULL;

/* Gives back the room of retracted statements: the live ones move down in their order and are numbered from 1, chains and counts are built
 * anew, names stay. LT_CAPACITY, LT_RECLAIM_LIMIT after 65,535 reclaims, LT_DAMAGED if the store is not sound. Cursors from before are
 * LT_STALE_CURSOR from now on, and statement numbers may have changed. Writes counters, resources, statements. */
uint32_t lt_reclaim(uint32_t *counters, size_t counters_len, uint32_t *resources, size_t resources_len, uint32_t *statements,
                    size_t statements_len, const uint32_t *index, size_t index_len, const uint8_t *text, size_t text_len) LT_NOT_NULL;

/* Opens a scan of the statements that match a pattern, LT_ANY, so 0, for any resource. LT_CAPACITY, LT_UNKNOWN_NUMBER for one above R,
 * LT_DAMAGED. Writes the cursor, LT_CURSOR_WORDS. */
uint32_t lt_scan_open(LT_STORE, uint32_t subject, uint32_t predicate, uint32_t object, uint32_t *cursor, size_t cursor_len) LT_NOT_NULL;

/* Next of a scan, visiting at most `budget` records, the statement of the highest number first (a revived one keeps its old number).
 * LT_CAPACITY, LT_STALE_CURSOR, LT_BAD_CURSOR, LT_NO_BUDGET, LT_DAMAGED. reply LT_SCAN_REPLY_WORDS: an `lt_step`, the statement or 0,
 * visits made. Writes the cursor. */
uint32_t lt_scan_next(LT_STORE, uint32_t *cursor, size_t cursor_len, uint32_t budget, uint32_t *reply, size_t reply_len) LT_NOT_NULL;

/* Opens a query of up to LT_MAX_PATTERNS patterns. LT_CAPACITY, LT_BAD_QUERY. Writes the cursor, LT_QUERY_CURSOR_WORDS: the start. It
 * does not hold the words: every next call is given them again. */
uint32_t lt_query_open(LT_STORE, const uint32_t *words, size_t words_len, uint32_t *cursor, size_t cursor_len) LT_NOT_NULL;

/* Next of a query: the resources for which every pattern is a live statement, visiting at most `budget` records; the first pattern's
 * statement of the highest number comes first. LT_CAPACITY, LT_BAD_QUERY, LT_STALE_CURSOR, LT_BAD_CURSOR, LT_NO_BUDGET, LT_DAMAGED. reply
 * LT_QUERY_REPLY_WORDS: an `lt_step`, visits made, the resource of each variable. Writes the cursor. */
uint32_t lt_query_next(LT_STORE, const uint32_t *words, size_t words_len, uint32_t *cursor, size_t cursor_len, uint32_t budget,
                       uint32_t *reply, size_t reply_len) LT_NOT_NULL;

/* Writes the live statements as a file of N-Triples in canonical form, lines in rising byte order. LT_CAPACITY, LT_DAMAGED if a statement
 * or one of its names cannot be read, a retracted one's too, LT_EXPORT_SPACE if `out` is shorter than the file or `work` than T words.
 * LT_MAX_LINE * T bytes are enough for any file. reply 1: the file's length in bytes. Writes the file, and 0 into the first T words of
 * `work`; nothing beside a refusal. */
uint32_t lt_export(LT_STORE, uint8_t *out, size_t out_len, uint32_t *work, size_t work_len, uint32_t *reply, size_t reply_len) LT_NOT_NULL;

#undef LT_STORE
#undef LT_NOT_NULL

/* The same with a struct for a store, and with named fields for replies and cursors. Each lt_store_… function makes one call of the
 * function above with the rest of its name (lt_store_find of lt_find), lt_kind_of of lt_name_kind, lt_line_read of lt_read_line, and gives
 * back its result. All that is said there holds: beside a refusal the reply's fields are 0 (except LT_BAD_LINE), and counters, cursor,
 * tables, a list's words, output and working words stay as they were. LT_TOO_SHORT cannot come. Words are copied to fields and back one by
 * one, so nothing depends on how a struct is laid out. lt_store_number and lt_store_live stand here alone.
 *
 * Where a length is 0 the pointer is not looked at: it may be null, as that of an empty vector. A store that is all zeros has no room, and
 * is sound. */

struct lt_counters {
    uint32_t resources, statements, text, reclaims;
};

/* A store: its counters, all 0 if it is fresh, and where its four tables stand. The functions that take it as const write none of them, so
 * to those alone tables that cannot be written may be lent, by a cast. */
struct lt_store {
    struct lt_counters counters;
    uint32_t *resources;
    size_t resources_len;
    uint32_t *statements;
    size_t statements_len;
    uint32_t *index;
    size_t index_len;
    uint8_t *text;
    size_t text_len;
};

/* A part of a text. */
struct lt_span {
    size_t start, length;
};

/* A name's number, or 0, and its position in the index, from 0, where it stands or would stand. */
struct lt_lookup {
    uint32_t number, position;
};

/* A line: an `lt_line_kind`; the position after it; its names in the text, 0 if there is no triple. `fault` is 0, and with LT_BAD_LINE the
 * offset in the line of the first byte that fits no line; `what` says nothing then. */
struct lt_line {
    uint32_t what;
    size_t next;
    struct lt_span subject, predicate, object;
    size_t fault;
};

/* A statement's resources, and 1 if it is retracted. */
struct lt_triple {
    uint32_t subject, predicate, object, retracted;
};

/* What asserting did, an `lt_asserted`, and the statement's number. */
struct lt_assertion {
    uint32_t status, number;
};

/* A scan's cursor: the pattern, LT_ANY where it is open; an `lt_chain`; the next statement or 0; the reclaims. */
struct lt_scan {
    uint32_t subject, predicate, object, chain, next, reclaims;
};

/* A scan's reply: an `lt_step`, the statement or 0, the visits made. */
struct lt_found {
    uint32_t step, statement, visits;
};

/* A query's cursor: an `lt_place`; how many levels are entered; the reclaims; for each level the chain and the record. */
struct lt_level {
    uint32_t chain, record;
};
struct lt_query {
    uint32_t place, levels, reclaims;
    struct lt_level level[LT_MAX_PATTERNS];
};

/* A query's reply: an `lt_step`, the visits made, the resource of each variable or 0. */
struct lt_solution {
    uint32_t step, visits;
    uint32_t resource[LT_VARIABLES];
};

/* Fields to words, and words to fields: LT_COUNTER_WORDS, LT_CURSOR_WORDS and LT_QUERY_CURSOR_WORDS of them. */
static inline void lt_counters_to_words(const struct lt_counters *counters, uint32_t *words)
{
    words[0] = counters->resources;
    words[1] = counters->statements;
    words[2] = counters->text;
    words[3] = counters->reclaims;
}

static inline void lt_counters_from_words(struct lt_counters *counters, const uint32_t *words)
{
    counters->resources = words[0];
    counters->statements = words[1];
    counters->text = words[2];
    counters->reclaims = words[3];
}

static inline void lt_scan_to_words(const struct lt_scan *scan, uint32_t *words)
{
    words[0] = scan->subject;
    words[1] = scan->predicate;
    words[2] = scan->object;
    words[3] = scan->chain;
    words[4] = scan->next;
    words[5] = scan->reclaims;
}

static inline void lt_scan_from_words(struct lt_scan *scan, const uint32_t *words)
{
    scan->subject = words[0];
    scan->predicate = words[1];
    scan->object = words[2];
    scan->chain = words[3];
    scan->next = words[4];
    scan->reclaims = words[5];
}

static inline void lt_query_to_words(const struct lt_query *query, uint32_t *words)
{
    size_t level;
    words[0] = query->place;
    words[1] = query->levels;
    words[2] = query->reclaims;
    for (level = 0; level < LT_MAX_PATTERNS; level++) {
        words[3 + 2 * level] = query->level[level].chain;
        words[4 + 2 * level] = query->level[level].record;
    }
}

static inline void lt_query_from_words(struct lt_query *query, const uint32_t *words)
{
    size_t level;
    query->place = words[0];
    query->levels = words[1];
    query->reclaims = words[2];
    for (level = 0; level < LT_MAX_PATTERNS; level++) {
        query->level[level].chain = words[3 + 2 * level];
        query->level[level].record = words[4 + 2 * level];
    }
}

/* A slice as two arguments. The library takes no null pointer: one of length 0 is lent at a place where nothing is read or written. */
static inline uint32_t *lt_no_words(void)
{
    static uint32_t none;
    return &none;
}

static inline uint8_t *lt_no_bytes(void)
{
    static uint8_t none;
    return &none;
}

#define LT_WORDS(pointer, length) (length) == 0 ? lt_no_words() : (pointer), (length)
#define LT_BYTES(pointer, length) (length) == 0 ? lt_no_bytes() : (pointer), (length)

/* lt_name_kind. */
static inline uint32_t lt_kind_of(const uint8_t *name, size_t name_len, uint32_t *kind)
{
    return lt_name_kind(LT_BYTES(name, name_len), kind, 1);
}

/* lt_read_line. */
static inline uint32_t lt_line_read(const uint8_t *text, size_t text_len, size_t at, struct lt_line *line)
{
    uint64_t words[LT_LINE_WORDS];
    uint32_t result = lt_read_line(LT_BYTES(text, text_len), at, words, LT_LINE_WORDS);
    line->what = LT_CAST(uint32_t, words[0]);
    line->next = words[1];
    line->fault = result == LT_BAD_LINE ? words[2] : 0;
    line->subject.start = result == LT_BAD_LINE ? 0 : words[2];
    line->subject.length = words[3];
    line->predicate.start = words[4];
    line->predicate.length = words[5];
    line->object.start = words[6];
    line->object.length = words[7];
    return result;
}

/* The five slices of a store, whose counters are `counters`. */
#define LT_SLICES                                                                            \
    counters, LT_COUNTER_WORDS, LT_WORDS(store->resources, store->resources_len),            \
        LT_WORDS(store->statements, store->statements_len), LT_WORDS(store->index, store->index_len), \
        LT_BYTES(store->text, store->text_len)

static inline uint32_t lt_store_check(const struct lt_store *store, uint32_t *sound)
{
    uint32_t counters[LT_COUNTER_WORDS];
    lt_counters_to_words(&store->counters, counters);
    return lt_check(LT_SLICES, sound, 1);
}

static inline uint32_t lt_store_find(const struct lt_store *store, const uint8_t *name, size_t name_len, struct lt_lookup *lookup)
{
    uint32_t counters[LT_COUNTER_WORDS], words[2], result;
    lt_counters_to_words(&store->counters, counters);
    result = lt_find(LT_SLICES, LT_BYTES(name, name_len), words, 2);
    lookup->number = words[0];
    lookup->position = words[1];
    return result;
}

/* The number of a name that must be there, as for a pattern: lt_find, but a name that is not there is refused, LT_UNKNOWN_NUMBER, the last
 * of the refusals. Beside a refusal the number is 0, which a pattern would take for any: so the result must be looked at. */
LT_LOOK_AT static inline uint32_t lt_store_number(const struct lt_store *store, const uint8_t *name, size_t name_len, uint32_t *number)
{
    struct lt_lookup lookup;
    uint32_t result = lt_store_find(store, name, name_len, &lookup);
    *number = lookup.number;
    if (result == LT_ANSWERED && lookup.number == 0)
        return LT_UNKNOWN_NUMBER;
    return result;
}

static inline uint32_t lt_store_names_with_prefix(const struct lt_store *store, const uint8_t *prefix, size_t prefix_len,
                                                  uint32_t *numbers, size_t numbers_len, uint32_t *total)
{
    uint32_t counters[LT_COUNTER_WORDS];
    lt_counters_to_words(&store->counters, counters);
    return lt_names_with_prefix(LT_SLICES, LT_BYTES(prefix, prefix_len), LT_WORDS(numbers, numbers_len), total, 1);
}

static inline uint32_t lt_store_enter(struct lt_store *store, const uint8_t *name, size_t name_len, uint32_t *number)
{
    uint32_t counters[LT_COUNTER_WORDS], result;
    lt_counters_to_words(&store->counters, counters);
    result = lt_enter(LT_SLICES, LT_BYTES(name, name_len), number, 1);
    lt_counters_from_words(&store->counters, counters);
    return result;
}

static inline uint32_t lt_store_name(const struct lt_store *store, uint32_t number, struct lt_span *name)
{
    uint32_t counters[LT_COUNTER_WORDS], words[2], result;
    lt_counters_to_words(&store->counters, counters);
    result = lt_name(LT_SLICES, number, words, 2);
    name->start = words[0];
    name->length = words[1];
    return result;
}

/* How many live statements have a resource at a position, as its record says. LT_CAPACITY, LT_UNKNOWN_NUMBER, also for a position that is
 * none; beside these 0. On tables that are not sound it is what the word holds. */
static inline uint32_t lt_store_live(const struct lt_store *store, uint32_t number, enum lt_position position, uint32_t *live)
{
    /* Opening a query of no patterns tests the counters and nothing else. */
    uint32_t counters[LT_COUNTER_WORDS], cursor[LT_QUERY_CURSOR_WORDS], result;
    size_t place = LT_CAST(size_t, position);
    lt_counters_to_words(&store->counters, counters);
    result = lt_query_open(LT_SLICES, lt_no_words(), 0, cursor, LT_QUERY_CURSOR_WORDS);
    *live = 0;
    if (result != LT_ANSWERED)
        return result;
    if (number == 0 || number > store->counters.resources || place > LT_OBJECT)
        return LT_UNKNOWN_NUMBER;
    *live = store->resources[LT_RESOURCE_WORDS * (LT_CAST(size_t, number) - 1) + LT_RESOURCE_LIVE + place];
    return LT_ANSWERED;
}

static inline uint32_t lt_store_statement(const struct lt_store *store, uint32_t number, struct lt_triple *triple)
{
    uint32_t counters[LT_COUNTER_WORDS], words[4], result;
    lt_counters_to_words(&store->counters, counters);
    result = lt_statement(LT_SLICES, number, words, 4);
    triple->subject = words[0];
    triple->predicate = words[1];
    triple->object = words[2];
    triple->retracted = words[3];
    return result;
}

static inline uint32_t lt_store_assert(struct lt_store *store, uint32_t subject, uint32_t predicate, uint32_t object,
                                       struct lt_assertion *assertion)
{
    uint32_t counters[LT_COUNTER_WORDS], words[2], result;
    lt_counters_to_words(&store->counters, counters);
    result = lt_assert(LT_SLICES, subject, predicate, object, words, 2);
    lt_counters_from_words(&store->counters, counters);
    assertion->status = words[0];
    assertion->number = words[1];
    return result;
}

static inline uint32_t lt_store_retract(struct lt_store *store, uint32_t subject, uint32_t predicate, uint32_t object,
                                        uint32_t *number)
{
    uint32_t counters[LT_COUNTER_WORDS];
    lt_counters_to_words(&store->counters, counters);
    return lt_retract(LT_SLICES, subject, predicate, object, number, 1);
}

static inline uint32_t lt_store_reclaim(struct lt_store *store)
{
    uint32_t counters[LT_COUNTER_WORDS], result;
    lt_counters_to_words(&store->counters, counters);
    result = lt_reclaim(LT_SLICES);
    lt_counters_from_words(&store->counters, counters);
    return result;
}

static inline uint32_t lt_store_scan_open(const struct lt_store *store, uint32_t subject, uint32_t predicate, uint32_t object,
                                          struct lt_scan *scan)
{
    uint32_t counters[LT_COUNTER_WORDS], cursor[LT_CURSOR_WORDS], result;
    lt_counters_to_words(&store->counters, counters);
    result = lt_scan_open(LT_SLICES, subject, predicate, object, cursor, LT_CURSOR_WORDS);
    if (result == LT_ANSWERED)
        lt_scan_from_words(scan, cursor);
    return result;
}

static inline uint32_t lt_store_scan_next(const struct lt_store *store, struct lt_scan *scan, uint32_t budget, struct lt_found *found)
{
    uint32_t counters[LT_COUNTER_WORDS], cursor[LT_CURSOR_WORDS], words[LT_SCAN_REPLY_WORDS], result;
    lt_counters_to_words(&store->counters, counters);
    lt_scan_to_words(scan, cursor);
    result = lt_scan_next(LT_SLICES, cursor, LT_CURSOR_WORDS, budget, words, LT_SCAN_REPLY_WORDS);
    lt_scan_from_words(scan, cursor);
    found->step = words[0];
    found->statement = words[1];
    found->visits = words[2];
    return result;
}

static inline uint32_t lt_store_query_open(const struct lt_store *store, const uint32_t *words, size_t words_len, struct lt_query *query)
{
    uint32_t counters[LT_COUNTER_WORDS], cursor[LT_QUERY_CURSOR_WORDS], result;
    lt_counters_to_words(&store->counters, counters);
    result = lt_query_open(LT_SLICES, LT_WORDS(words, words_len), cursor, LT_QUERY_CURSOR_WORDS);
    if (result == LT_ANSWERED)
        lt_query_from_words(query, cursor);
    return result;
}

static inline uint32_t lt_store_query_next(const struct lt_store *store, const uint32_t *words, size_t words_len, struct lt_query *query,
                                           uint32_t budget, struct lt_solution *solution)
{
    uint32_t counters[LT_COUNTER_WORDS], cursor[LT_QUERY_CURSOR_WORDS], reply[LT_QUERY_REPLY_WORDS], result;
    size_t variable;
    lt_counters_to_words(&store->counters, counters);
    lt_query_to_words(query, cursor);
    result = lt_query_next(LT_SLICES, LT_WORDS(words, words_len), cursor, LT_QUERY_CURSOR_WORDS, budget, reply, LT_QUERY_REPLY_WORDS);
    lt_query_from_words(query, cursor);
    solution->step = reply[0];
    solution->visits = reply[1];
    for (variable = 0; variable < LT_VARIABLES; variable++)
        solution->resource[variable] = reply[2 + variable];
    return result;
}

static inline uint32_t lt_store_export(const struct lt_store *store, uint8_t *out, size_t out_len, uint32_t *work, size_t work_len,
                                       uint32_t *length)
{
    uint32_t counters[LT_COUNTER_WORDS];
    lt_counters_to_words(&store->counters, counters);
    return lt_export(LT_SLICES, LT_BYTES(out, out_len), LT_WORDS(work, work_len), length, 1);
}

#undef LT_SLICES
#undef LT_WORDS
#undef LT_BYTES
#undef LT_LOOK_AT

#ifdef __cplusplus
}
#endif

#endif
