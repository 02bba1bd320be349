/*
 * The profile through bolyverit.h: one line is set with profile 0 and with profile 1, and printed as the setting program does,
 * each after its profile. A call with a profile that is none follows.
 *
 *     cc -Iinclude examples/c/profile.c target/staticlib/libexports.a -o profile
 *
 * The line: a word with a reading of five, a kana, another word with a reading of five, a narrow kana, a word with a reading of
 * two, as in 志 (こころざし) を承 (うけたまわ) る者 (もの). Em 10, base characters 10 wide but for the narrow kana, which is 4,
 * ruby characters 5. profile.result is worked by hand, in half units; "to" is an end:
 *
 *   words           A reading of five is 50 long over a base of 20: D = 15, so the base starts 15 behind its reading, and the
 *                   reading ends 15 behind the base. The last word's reading is as long as its base.
 *   depth           With profile 0 no ruby lies on a kana. With profile 1: half an em is 10, the kana 20 long, so 10 on the
 *                   first; the narrow one is 8 long, so 8.
 *
 *                   profile 0                                    profile 1
 *   first word      ruby 0, to 50; base 15, to 35                the same
 *   kana            behind base and ruby: at 50, to 70           takes 10 of the ruby: at 50 - 10 = 40, to 60
 *   second word     ruby 70, to 120; base 85, to 105             ruby 60 - 10 = 50, just behind the first, to 100;
 *                                                                base 65, to 85
 *   narrow kana     at 120, to 128                               takes 8 of the ruby: at 100 - 8 = 92, to 100
 *   last word       base and ruby 128, to 148                    base and ruby 100, to 120
 *   extent          148                                          120
 */
#include <stdio.h>

#include "bolyverit.h"

#define EM 10
#define MEASURE 100
#define BASES 5
#define RUBIES 12
#define CALLS 3

/* Each element has one base character. */
static const uint32_t usual[3] = {1, 2, 1};
static const uint32_t class_[BASES] = {19, 15, 19, 15, 19};
static const uint32_t width[BASES] = {10, 10, 10, 4, 10};
static const uint32_t before[BASES] = {0, 0, 0, 0, 0};
static const uint32_t after[BASES] = {0, 0, 0, 0, 0};
static const uint32_t flag[BASES] = {1, 1, 1, 1, 1};
static const uint32_t rclass[RUBIES] = {15, 15, 15, 15, 15, 15, 15, 15, 15, 15, 15, 15};
static const uint32_t rwidth[RUBIES] = {5, 5, 5, 5, 5, 5, 5, 5, 5, 5, 5, 5};
static const uint32_t kind[BASES] = {BV_M, BV_P, BV_M, BV_P, BV_M};
static const uint32_t ebase[BASES] = {0, 0, 0, 0, 0}; /* not read of M and P */
static const uint32_t eruby[BASES] = {5, 0, 5, 0, 2};
static const uint32_t none[BASES] = {BV_LEFT_NONE, BV_LEFT_NONE, BV_LEFT_NONE, BV_LEFT_NONE, BV_LEFT_NONE};
static const uint32_t runs[1] = {0}; /* there is no J, but a pointer is not null */

static const uint32_t profiles[CALLS] = {0, 1, 2};

/* The ruby characters of base character b: rubies[b] up to rubies[b + 1]. */
static const uint32_t rubies[BASES + 1] = {0, 5, 5, 10, 10, 12};

static uint32_t base[BASES], ruby[RUBIES], left[1], lines[BASES];
static const bv_places places = {BASES, RUBIES, 0, BASES, base, ruby, left, lines};

/* The job but for its profile. There are no left readings: no left characters and runs, and the left count is not read. */
static bv_job job = {
    EM, MEASURE, usual, usual, 0,
    BASES, class_, width, before, after, flag,
    RUBIES, rclass, rwidth,
    0, rclass, rwidth,
    BASES, kind, ebase, eruby, none, eruby,
    0, runs,
    0, runs
};

/* "The line's extent is the furthest end of any block or ruby in it." */
static uint32_t extent(uint32_t from, uint32_t upto)
{
    uint32_t most = 0, i;
    for (i = from; i < upto; i++)
        if (most < base[i] + 2 * width[i])
            most = base[i] + 2 * width[i];
    for (i = rubies[from]; i < rubies[upto]; i++)
        if (most < ruby[i] + 2 * rwidth[i])
            most = ruby[i] + 2 * rwidth[i];
    return most;
}

static void print_lines(uint32_t count)
{
    uint32_t l, b = 0, r;
    printf("lines %lu\n", (unsigned long)count);
    for (l = 0; l < count; l++) {
        printf("line %lu\n", (unsigned long)extent(b, lines[l]));
        for (; b < lines[l]; b++) {
            printf("b %lu %lu\n", (unsigned long)b, (unsigned long)base[b]);
            for (r = rubies[b]; r < rubies[b + 1]; r++)
                printf("r %lu %lu\n", (unsigned long)r, (unsigned long)ruby[r]);
        }
    }
}

int main(void)
{
    int t;
    for (t = 0; t < CALLS; t++) {
        bv_answer a;
        job.profile = profiles[t];
        a = bv_set(&job, &places);
        printf("profile %lu\n", (unsigned long)profiles[t]);
        if (a.number == BV_SET)
            print_lines(a.place);
        else
            printf("refused %lu %lu\n", (unsigned long)a.number, (unsigned long)a.place);
    }
    return 0;
}
