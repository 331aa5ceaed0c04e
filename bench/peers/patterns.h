/* The patterns of a join by letter: a is (?x p1 K), b (?x p2 ?y), c (?y p3 ?z), or (?z p3 ?y) where the join goes into; d, e, f are three
 * more, for openings of six. An order of patterns is a string of these letters. */
#ifndef PATTERNS_H
#define PATTERNS_H

/* Subject, predicate, object: K, a digit for p1 to p3, or a variable, u to z. */
static inline const char *pattern_terms(int into, char which)
{
    static const char *const terms[2][6] = {
        {"x1K", "x2y", "y3z", "w2y", "w1v", "v3u"},
        {"x1K", "x2y", "z3y", "w2y", "w1v", "u3v"},
    };
    return terms[into][which - 'a'];
}

#endif
