/*
 * What the C engine's files share: the class table as sets, a job behind its door, and where results go. Sentences in quotation
 * marks are document 01's, those about ratios, profiles and left readings document 02's.
 */
#ifndef ENGINE_H
#define ENGINE_H

#include "bolyverit.h"

typedef uint32_t u32;
typedef int32_t i32;

/*
 * A J is long to pass and so kept out of the loop over elements, a G is put into it; strings are short, and so their loops are
 * left as they stand.
 */
#if defined(__clang__)
#define APART __attribute__((noinline))
#define WITHIN __attribute__((always_inline))
#define SHORT_LOOP _Pragma("clang loop vectorize(disable) unroll(disable)")
#elif defined(__GNUC__)
#define APART __attribute__((noinline))
#define WITHIN
#define SHORT_LOOP
#else
#define APART
#define WITHIN
#define SHORT_LOOP
#endif

/* The class table as sets: bit c speaks of class c. Classes past 31 are asked of no set. */
#define CLASSES(from, to) ((0xffffffffu >> (31 - (to))) & (0xffffffffu << (from)))
#define CLASS(c) (1u << (c))
#define KANA CLASSES(1, 19)                          /* "Kana-like means every accepted class but 24 to 27." */
#define WESTERN (CLASSES(24, 25) | CLASS(27))        /* "Western means classes 24, 25 and 27." */
#define SPACE CLASS(26)
#define ACCEPTED (CLASSES(1, 19) | CLASSES(24, 27))
#define BEFORE (CLASS(1) | CLASS(5))                 /* "Class 1 may have a blank before; .. 5 both" */
#define AFTER (CLASS(2) | CLASS(5) | CLASS(6) | CLASS(7))
#define WHOLE CLASS(14)                              /* "In class 14 .. the whole width is blank." */
#define TRUE_KANA CLASSES(15, 16)                    /* "ruby on a P element of class 15 or 16" */
#define QUARTER CLASS(5)                             /* "for class 5 a quarter em" */

/* A ratio a:m:c, as it is worked with: D times a or c, doubled, is shared out over S = a + m(n - 1) + c, which is m n + rest. */
struct ratio {
    u32 a, c; /* twice the ratio's */
    u32 m, rest;
    int uneven; /* a and c differ */
};

/* The sides on which an element may have a reading. */
#define RIGHT 0
#define LEFT 1

/* The characters of one side's readings and their runs. */
struct side {
    u32 count;
    size_t runs_length;
    const u32 *class_, *width, *runs;
};

/* The lists of a job, counts in place of lengths. */
struct job {
    u32 em, limit; /* limit: the measure in half units, at most 8,000,000 */
    struct ratio over, under; /* of spread ruby, of spread base */
    u32 most; /* of a gap at an end of spread ruby, where the half-em limit holds */
    u32 on_kana; /* how deep ruby may lie on a kana, but for its width: 0 with profile 0 */
    u32 bases, elements;
    const u32 *class_, *width, *before, *after, *flag;
    struct side side[2];
    const u32 *kind, *ebase, *eruby, *lkind, *eleft;
};

struct results {
    u32 *base, *ruby[2], *lines;
};

/* left.c: a job with left readings whose characters have passed the door. */
bv_answer set_with_left(const struct job *j, const struct results *to);

#endif
