/*
 * The worked example of document 01 in lists: em 10, measure 35; a mono word of three ruby characters, a plain character, a
 * jukugo word of two characters with runs of 1 and 2. The measure cuts the jukugo word, and its second character begins the
 * second line.
 */
#include "bolyverit.h"

#define EM 10
#define MEASURE 35
#define BASES 4
#define RUBIES 6
#define ELEMENTS 3
#define RUNS 2
#define PROFILE 0 /* that of every sheet of form one: no ruby on the kana */

/* How spread ruby and spread base share out their space: the usual ratio, that of form one. Nothing is spread here. */
static const uint32_t usual[3] = {1, 2, 1};
static const uint32_t class_[BASES] = {19, 15, 19, 19};
static const uint32_t width[BASES] = {10, 10, 10, 10};
static const uint32_t before[BASES] = {0, 0, 0, 0};
static const uint32_t after[BASES] = {0, 0, 0, 0};
static const uint32_t flag[BASES] = {1, 1, 1, 1};
static const uint32_t rclass[RUBIES] = {15, 15, 15, 15, 15, 15};
static const uint32_t rwidth[RUBIES] = {5, 5, 5, 5, 5, 5};
static const uint32_t kind[ELEMENTS] = {BV_M, BV_P, BV_J};
static const uint32_t ebase[ELEMENTS] = {0, 0, 2}; /* not read but for the J */
static const uint32_t eruby[ELEMENTS] = {3, 0, 0}; /* not read but for the M */
static const uint32_t runs[RUNS] = {1, 2};
static const uint32_t none[ELEMENTS] = {BV_LEFT_NONE, BV_LEFT_NONE, BV_LEFT_NONE};

/*
 * What a call reads. There are no left readings: no left characters and left runs, and a left count is not read; but no pointer is
 * null, and lists that are only read may be the same.
 */
static const bv_job job = {
    EM, MEASURE, usual, usual, PROFILE,
    BASES, class_, width, before, after, flag,
    RUBIES, rclass, rwidth,
    0, rclass, rwidth,
    ELEMENTS, kind, ebase, eruby, none, eruby,
    RUNS, runs,
    0, runs
};
