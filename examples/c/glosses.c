/*
 * Readings on both sides through bolyverit.h: one line with a Japanese reading on the right of its words and a gloss on the left
 * is set by a wide measure and by a narrow one, and printed as the setting program does, `l` for left characters; its account
 * follows each time. Two calls with a left kind that is refused come last.
 *
 *     cc -Iinclude examples/c/glosses.c target/staticlib/libexports.a -o glosses
 *
 * The line: a mono word with a mono gloss, a comma with a blank after it, a group with a gloss for all of it, a kana, a jukugo
 * word with a gloss for each of its characters, a word without a gloss, as in 志 (こころざし, will) 、学校 (がっこう, school)
 * の火山 (か, fire; ざん, mountain) 口 (こう). Em 10, base characters 10 wide, ruby characters 5, letters of a gloss 4, the
 * blank 5. glosses.result is worked by hand from document 02, in half units; "to" is an end, and R and L are the two readings:
 *
 *   志      "Mono with mono is solid and centred on both sides": 10, 25 and 16 units. The longest is R, 25; the base starts 15
 *           behind it, L 25 - 16 = 9. At the line's start: R 0, to 50; base 15, to 35; L 9, to 41.
 *   、      It has no blank before and waits for the end of R: at 50, to 70. Either reading may lie on its last 10.
 *   学校    "Two groups": 20 units of base, R 20, L 24. L is longer than the base, so it "is set with the base by document 01":
 *           Western over kana-like, longer, spreads the base. D = 4, n = 2: front 8 / 4 = 2, rear 2, 4 within. Base 2, 26, to 46;
 *           L 0, 8, 16, 24, 32, 40, to 48. R "is then set as a shorter or equal ruby over a base of the longer one's length and
 *           the base's own kind": kana-like over kana-like, 20 over 24. D = 4, n = 4: front 8 / 8 = 1, rear 1, 6 within, 2 in
 *           each gap. R 1, 13, 25, 37, to 47: it passes the base by 1 at either end.
 *           The base stands behind the comma, at 70, so the word starts at 68: base 70, 94, to 114; R 69, to 115; L 68, to 116.
 *           1 of R and 2 of L lie on the comma's blank.
 *   の      It waits for the end of L: at 116, to 136.
 *   火      "a J with a mono left reading is set as one such M for each character": 10, 5 and 16 units. Longest is L: base 6
 *           behind it, R 11. L keeps off the kana: 136, to 168; base 142, to 162; R 147, to 157.
 *   山      10, 10 and 32 units: base and R 22 behind L. Each character is "an element to the clearance rules", and rule 3 holds
 *           "for rubies of one side": L begins where that of 火 ends, 168, to 232; base and R 190, to 210.
 *   口      It has no gloss, and yet its base keeps off the one before: base and R at 232, to 252.
 *   extent  252; the wide measure has 260.
 *
 * In the narrow measure, 168, 火 is the last that fits, and just fits: a J with a mono left reading is cut as in document 01. 山
 * begins the next line with its gloss: L 0, to 64; base and R 22, to 42. 口 follows at 64, to 84.
 *
 * Of readings there are 2 to each of 志, 学校 and 火山, the word and not its characters, and 1 to 口: 7.
 */
#include <stdio.h>

#include "bolyverit.h"
#include "rows.h"

#define EM 10
#define BASES 8
#define RUBIES 14
#define LEFTS 22
#define ELEMENTS 6
#define RUNS 2
#define CALLS 4

static const uint32_t usual[3] = {1, 2, 1};
static const uint32_t class_[BASES] = {19, 7, 19, 19, 15, 19, 19, 19};
static const uint32_t width[BASES] = {10, 10, 10, 10, 10, 10, 10, 10};
static const uint32_t before[BASES] = {0, 0, 0, 0, 0, 0, 0, 0};
static const uint32_t after[BASES] = {0, 5, 0, 0, 0, 0, 0, 0};
static const uint32_t flag[BASES] = {1, 1, 1, 1, 1, 1, 1, 1};
static const uint32_t rclass[RUBIES] = {15, 15, 15, 15, 15, 15, 15, 15, 15, 15, 15, 15, 15, 15};
static const uint32_t rwidth[RUBIES] = {5, 5, 5, 5, 5, 5, 5, 5, 5, 5, 5, 5, 5, 5};
static const uint32_t lclass[LEFTS] = {27, 27, 27, 27, 27, 27, 27, 27, 27, 27, 27, 27, 27, 27, 27, 27, 27, 27, 27, 27, 27, 27};
static const uint32_t lwidth[LEFTS] = {4, 4, 4, 4, 4, 4, 4, 4, 4, 4, 4, 4, 4, 4, 4, 4, 4, 4, 4, 4, 4, 4};
static const uint32_t kind[ELEMENTS] = {BV_M, BV_P, BV_G, BV_P, BV_J, BV_M};
static const uint32_t ebase[ELEMENTS] = {0, 0, 2, 0, 2, 0};
static const uint32_t eruby[ELEMENTS] = {5, 0, 4, 0, 0, 2};
static const uint32_t eleft[ELEMENTS] = {4, 0, 6, 0, 0, 0}; /* read of the M and the G that have a gloss */
static const uint32_t runs[RUNS] = {1, 2};
static const uint32_t lruns[RUNS] = {4, 8};

/* The glosses of the line; a group on the M, which takes none (16); a list that was not set, and 0 is no left kind (5). */
static const uint32_t glosses[ELEMENTS] = {BV_LEFT_M, BV_LEFT_NONE, BV_LEFT_G, BV_LEFT_NONE, BV_LEFT_M, BV_LEFT_NONE};
static const uint32_t a_group[ELEMENTS] = {BV_LEFT_G, BV_LEFT_NONE, BV_LEFT_G, BV_LEFT_NONE, BV_LEFT_M, BV_LEFT_NONE};
static const uint32_t not_set[ELEMENTS] = {0, 0, 0, 0, 0, 0};

/* Of each call what is printed before it, the measure and the left kinds. */
static const struct call {
    const char *name;
    uint32_t measure;
    const uint32_t *lkind;
} calls[CALLS] = {
    {"wide", 130, glosses}, {"narrow", 84, glosses}, {"a group on the mono word", 130, a_group}, {"not set", 130, not_set}
};

/*
 * The element of each base character, and where its ruby and left characters begin; those of the group belong to it as a whole and
 * are told with its first.
 */
static const uint32_t owner[BASES] = {0, 1, 2, 2, 3, 4, 4, 5};
static const uint32_t rubies[BASES + 1] = {0, 5, 5, 9, 9, 9, 10, 12, 14};
static const uint32_t lefts[BASES + 1] = {0, 4, 4, 10, 10, 10, 14, 22, 22};

static uint32_t base[BASES], ruby[RUBIES], left[LEFTS], lines[BASES];
static const bv_places places = {BASES, RUBIES, LEFTS, BASES, base, ruby, left, lines};
static uint32_t rows[BV_ROW * BASES], told[BASES], extents[BASES];
static const bv_reasons accounts = {BV_ROW * BASES, BASES, BASES, rows, told, extents};

/* The furthest end of the characters from i up to n. */
static uint32_t furthest(const uint32_t *at, const uint32_t *wide, uint32_t i, uint32_t n, uint32_t most)
{
    for (; i < n; i++)
        if (most < at[i] + 2 * wide[i])
            most = at[i] + 2 * wide[i];
    return most;
}

/* "The line's extent is the furthest end of any block or ruby in it." */
static uint32_t extent(uint32_t from, uint32_t upto)
{
    uint32_t most = furthest(base, width, from, upto, 0);
    most = furthest(ruby, rwidth, rubies[from], rubies[upto], most);
    return furthest(left, lwidth, lefts[from], lefts[upto], most);
}

static void print_characters(const char *letter, const uint32_t *at, uint32_t i, uint32_t n)
{
    for (; i < n; i++)
        printf("%s %lu %lu\n", letter, (unsigned long)i, (unsigned long)at[i]);
}

/* Element by element, of each what the line has of it: base, ruby, left. */
static void print_lines(uint32_t count)
{
    uint32_t l, b = 0, upto;
    printf("lines %lu\n", (unsigned long)count);
    for (l = 0; l < count; l++) {
        printf("line %lu\n", (unsigned long)extent(b, lines[l]));
        for (; b < lines[l]; b = upto) {
            for (upto = b + 1; upto < lines[l] && owner[upto] == owner[b]; upto++)
                ;
            print_characters("b", base, b, upto);
            print_characters("r", ruby, rubies[b], rubies[upto]);
            print_characters("l", left, lefts[b], lefts[upto]);
        }
    }
}

static void print_account(uint32_t count)
{
    uint32_t e, readings = 0;
    for (e = 0; e < ELEMENTS; e++)
        readings += (kind[e] != BV_P) + (glosses[e] != BV_LEFT_NONE);
    printf("clear lines %lu elements %d readings %lu\n", (unsigned long)count, ELEMENTS, (unsigned long)readings);
    print_rows(count, rows, told, extents);
}

int main(void)
{
    int t;
    bv_job job = {
        EM, 0, usual, usual, 0,
        BASES, class_, width, before, after, flag,
        RUBIES, rclass, rwidth,
        LEFTS, lclass, lwidth,
        ELEMENTS, kind, ebase, eruby, glosses, eleft,
        RUNS, runs,
        RUNS, lruns
    };
    for (t = 0; t < CALLS; t++) {
        bv_answer set, accounted;
        job.measure = calls[t].measure;
        job.lkind = calls[t].lkind;
        set = bv_set(&job, &places);
        accounted = bv_account(&job, &accounts);
        printf("%s\n", calls[t].name);
        if (set.number != accounted.number || set.place != accounted.place)
            return 1;
        if (set.number == BV_SET) {
            print_lines(set.place);
            print_account(accounted.place);
        } else {
            printf("refused %lu %lu\n", (unsigned long)set.number, (unsigned long)set.place);
        }
    }
    return 0;
}
