/*
 * House ratios through bolyverit.h: one line is set with 1:2:1, with shoulder-set readings (0:0:1) and with 1:3:1, and printed
 * as the setting program does, each after its ratios. Two calls with a ratio that is none follow.
 *
 *     cc -Iinclude examples/c/ratios.c target/staticlib/libexports.a -o ratios
 *
 * The line: a word of three characters with a reading of two, which is spread over it; a comma with a blank after it; a word
 * of three with a reading of eight, which spreads it; an opening bracket with a blank before it. Em 10, base characters 10
 * wide, ruby characters 5, blanks 5. ratios.result is worked by hand. 2D is the space in half units, S = a + m(n - 1) + c:
 *
 *   first word      2D = 2 * (30 - 10) = 40, n = 2
 *     1:2:1         S = 4: front 40 / 4 = 10, rear 10, just the half em; 20 within. Ruby 10, 10 + 10 + 20 = 40, to 50.
 *     0:0:1         S = 1: front 0, rear 40, none within. Ruby 0, 10, to 20.
 *     1:3:1         S = 5: front 40 / 5 = 8, rear 8; 24 within. Ruby 8, 8 + 10 + 24 = 42, to 52.
 *   The word's base stands at 0, 20, 40, and the comma at 60, to 80. Ruby may lie on its last 10.
 *   second word     2D = 2 * (40 - 30) = 20, n = 3
 *     1:2:1         S = 6: front 20 / 6 = 3, rear 3; 14 within, 7 in each gap. Base 3, 30, 57, to 77, below ruby from 0 to 80.
 *     0:0:1         S = 1: front 0, rear 20, none within. Base 0, 20, 40, to 60.
 *     1:3:1         S = 8: front 20 / 8 = 2, rear 2; 16 within, 8 in each gap. Base 2, 30, 58, to 78.
 *   Its base begins at 80, behind the comma, and its ruby as far ahead as the front gap is, on the comma's blank: at 77, 80, 78.
 *   It ends 80 later, at 157, 160, 158, and the base at 77 + 77 = 154, 80 + 60 = 140, 78 + 78 = 156.
 *   The bracket stands behind the base, and takes at most 10 of the ruby: at 154, at 160 - 10 = 150, at 156. It is 20 long.
 */
#include <stdio.h>

#include "bolyverit.h"

#define EM 10
#define MEASURE 100
#define BASES 8
#define RUBIES 10
#define ELEMENTS 4
#define PROFILE 0
#define CALLS 5

static const uint32_t class_[BASES] = {19, 19, 19, 7, 19, 19, 19, 1};
static const uint32_t width[BASES] = {10, 10, 10, 10, 10, 10, 10, 10};
static const uint32_t before[BASES] = {0, 0, 0, 0, 0, 0, 0, 5};
static const uint32_t after[BASES] = {0, 0, 0, 5, 0, 0, 0, 0};
static const uint32_t flag[BASES] = {1, 1, 1, 1, 1, 1, 1, 1};
static const uint32_t rclass[RUBIES] = {15, 15, 15, 15, 15, 15, 15, 15, 15, 15};
static const uint32_t rwidth[RUBIES] = {5, 5, 5, 5, 5, 5, 5, 5, 5, 5};
static const uint32_t kind[ELEMENTS] = {BV_G, BV_P, BV_G, BV_P};
static const uint32_t ebase[ELEMENTS] = {3, 0, 3, 0};
static const uint32_t eruby[ELEMENTS] = {2, 0, 8, 0};
static const uint32_t none[ELEMENTS] = {BV_LEFT_NONE, BV_LEFT_NONE, BV_LEFT_NONE, BV_LEFT_NONE};
static const uint32_t runs[1] = {0}; /* there is no J, but a pointer is not null */

/* Of each call the ruby ratio and the base ratio. The ruby ratio is judged first, so the fourth call has place 0, the fifth 1. */
static const uint32_t ratios[CALLS][2][3] = {
    {{1, 2, 1}, {1, 2, 1}}, {{0, 0, 1}, {0, 0, 1}}, {{1, 3, 1}, {1, 3, 1}}, {{0, 0, 0}, {1, 8, 1}}, {{0, 0, 1}, {1, 8, 1}},
};

/* The characters of element e: base first[e] up to first[e + 1], ruby rfirst[e] up to rfirst[e + 1]. No element is cut. */
static const uint32_t first[ELEMENTS + 1] = {0, 3, 4, 7, 8};
static const uint32_t rfirst[ELEMENTS + 1] = {0, 2, 2, 10, 10};

static uint32_t base[BASES], ruby[RUBIES], left[1], lines[BASES];
static const bv_places places = {BASES, RUBIES, 0, BASES, base, ruby, left, lines};

/* The job but for its ratios. There are no left readings: no left characters and runs, and the left count is not read. */
static bv_job job = {
    EM, MEASURE, 0, 0, PROFILE,
    BASES, class_, width, before, after, flag,
    RUBIES, rclass, rwidth,
    0, rclass, rwidth,
    ELEMENTS, kind, ebase, eruby, none, eruby,
    0, runs,
    0, runs
};

/* "The line's extent is the furthest end of any block or ruby in it." */
static uint32_t extent(uint32_t e, uint32_t upto)
{
    uint32_t most = 0, i;
    for (i = first[e]; i < first[upto]; i++)
        if (most < base[i] + 2 * width[i])
            most = base[i] + 2 * width[i];
    for (i = rfirst[e]; i < rfirst[upto]; i++)
        if (most < ruby[i] + 2 * rwidth[i])
            most = ruby[i] + 2 * rwidth[i];
    return most;
}

static void print_lines(uint32_t count)
{
    uint32_t l, i, e = 0, upto;
    printf("lines %lu\n", (unsigned long)count);
    for (l = 0; l < count; l++) {
        for (upto = e; first[upto] < lines[l]; upto++)
            ;
        printf("line %lu\n", (unsigned long)extent(e, upto));
        for (; e < upto; e++) {
            for (i = first[e]; i < first[e + 1]; i++)
                printf("b %lu %lu\n", (unsigned long)i, (unsigned long)base[i]);
            for (i = rfirst[e]; i < rfirst[e + 1]; i++)
                printf("r %lu %lu\n", (unsigned long)i, (unsigned long)ruby[i]);
        }
    }
}

int main(void)
{
    int t;
    for (t = 0; t < CALLS; t++) {
        const uint32_t *over = ratios[t][0], *under = ratios[t][1];
        bv_answer a;
        job.ruby_ratio = over;
        job.base_ratio = under;
        a = bv_set(&job, &places);
        printf("ruby %lu:%lu:%lu base %lu:%lu:%lu\n", (unsigned long)over[0], (unsigned long)over[1], (unsigned long)over[2],
               (unsigned long)under[0], (unsigned long)under[1], (unsigned long)under[2]);
        if (a.number == BV_SET)
            print_lines(a.place);
        else
            printf("refused %lu %lu\n", (unsigned long)a.number, (unsigned long)a.place);
    }
    return 0;
}
