/*
 * Bolyverit for C and C++: ruby is set by a proved engine.
 *
 * Link with target/staticlib/libexports.a (written by `bin/proved exports`), on x86-64 Linux. The header is plain C89 but
 * for <stdint.h>, which C99 and C++11 have; a C89 compiler without it needs the types uint8_t and uint32_t declared before.
 *
 * All numbers are those of the scope document ("document 01"): widths are whole units, positions are half units from the
 * start of the line, places count from 0 except where the document says "line from 1". The ratios and number 15 are those of
 * the request R-4, left readings and number 16 those of R-5, the profile and number 20 those of R-8.
 *
 * What a caller must guarantee, since no proof can see it:
 *   - each pointer is not null and is aligned for its type, also where its length is 0, and may be read (or, for the lists
 *     that are not const, read and written) for the length that follows it; a ratio has no length and may be read for three
 *     numbers;
 *   - no list that is written shares memory with any other list of the same call; lists that are only read may be the same,
 *     the two ratios too;
 *   - nothing else writes these lists while the call runs. Calls on different lists may run at the same time: there is no
 *     state between calls, no heap and no file;
 *   - 560 kilobytes of stack are free: the functions keep their tables there, 115,200 bytes of them in bv_set_job (12,800 for a small
 *     job and 102,400 for a large one, of which a call uses one), 102,400 in bv_account_job, 462,884 in bv_set_sheet and 471,076 in
 *     bv_account_sheet; the rest is for the calls themselves.
 * Nothing else is asked: any numbers in the lists and the ratios, any profile and any lengths are answered.
 *
 * What is proved, for every call that keeps the above. Of bv_set_job: the answer and the four result lists are those of the
 * definition `outcome` (crates/job/specs/Outcome.antt), refusals included. Of bv_set_sheet: the bytes written are `answer_text` of
 * the sheet's bytes (crates/setter/specs/Answer.antt). Of bv_account_job: the answer and the three lists are those of `telling`
 * (crates/job_account/specs/Outcome.antt), whose reasons are tight (crates/job_account/specs/Theorems.antt). Of bv_account_sheet:
 * the bytes written are `account_of_sheet` of the sheet's bytes (crates/account_sheet/specs/Answer.antt). Of all: the call ends,
 * reads and writes nothing outside its lists, and no sum in it wraps.
 */
#ifndef BOLYVERIT_H
#define BOLYVERIT_H

#include <stddef.h>
#include <stdint.h>

/* How a function of this header itself is declared: C89 has no `inline`, and most of its compilers have it under another name. */
#ifndef BV_INLINE
#if defined(__cplusplus) || (defined(__STDC_VERSION__) && __STDC_VERSION__ >= 199901L)
#define BV_INLINE static inline
#elif defined(__GNUC__)
#define BV_INLINE static __inline__
#elif defined(_MSC_VER)
#define BV_INLINE static __inline
#else
#define BV_INLINE static
#endif
#endif

#ifdef __cplusplus
extern "C" {
#endif

/* "At most 1,024 base characters, 2,048 ruby characters, 1,024 elements", and as many left characters as ruby ones. */
#define BV_MOST_BASE 1024
#define BV_MOST_RUBY 2048
#define BV_MOST_LEFT 2048
#define BV_MOST_ELEMENTS 1024

/* How a kind is written in the list of kinds: the byte of the sheet's letter. */
#define BV_P 80
#define BV_M 77
#define BV_G 71
#define BV_J 74

/* The same of a left kind. 0, which an unset list holds, is none of them and not taken for "none". */
#define BV_LEFT_NONE 78 /* the element has no left reading */
#define BV_LEFT_M 77    /* mono: on M and J */
#define BV_LEFT_G 71    /* group: on G and J */
#define BV_LEFT_J 74    /* jukugo: on J */

/* The numbers of the refusal list. There is no number 14. */
#define BV_SET 0            /* not refused */
#define BV_RANGE 1          /* em odd, or em or measure out of range; 0 em, 1 measure */
#define BV_COUNT 2          /* a count over its maximum; 0 base, 1 ruby, 2 elements, 3 left */
#define BV_CHARACTER 3      /* class, width or flag not accepted; the character, ruby ones 1,024 + index, left ones 3,072 + index */
#define BV_BLANKS 4         /* blanks against the class or over the width; the character */
#define BV_ELEMENT 5        /* unknown kind or left kind, or element counts out of range; the element */
#define BV_SUPPLY 6         /* characters run out, or are left over; the element, or the element count */
#define BV_BLANK_INSIDE 7   /* a blank field not 0 inside M, G or J; the element */
#define BV_JUKUGO_BASE 8    /* a J base character not kana-like or not one em wide; the element */
#define BV_MIXED 9          /* class 26, or Western and kana-like mixed, in base, ruby or left characters of G or J; the element */
#define BV_WESTERN_OVER 10  /* Western ruby or left characters over Western base in G; the element */
#define BV_NO_BREAK 11      /* no permitted break gives a line that can be set; its first base character */
#define BV_SHORT 12         /* a result list too short; 0 */
#define BV_FORM 13          /* a job sheet breaks its form; the line from 1, 0 if over 65,535 bytes */
#define BV_RATIO 15         /* a ratio number over 7, or all three 0; 0 ruby ratio, 1 base ratio */
#define BV_LEFT_KIND 16     /* a left kind that its element does not take; the element */
#define BV_PROFILE 20       /* a profile over 1; 0 */

/* number 0: the job is set, and place is the number of its lines. Otherwise the refusal's number and its place. */
typedef struct bv_answer {
    uint32_t number;
    uint32_t place;
} bv_answer;

/*
 * Sets a job that is given in lists, each followed by its length in entries.
 *
 *   em, measure                        the size of a base character and the measure, in units
 *   ruby_ratio, base_ratio             how spread ruby and spread base share out their space: three numbers a, m, c each
 *   profile                            on which neighbours ruby may lie: 0 or 1
 *   class_, width, before, after, flag the fields of the base characters
 *   rclass, rwidth                     the fields of the ruby characters, those of right readings
 *   lclass, lwidth                     the fields of the left characters, those of left readings
 *   kind, ebase, eruby, lkind, eleft   the fields of the elements: BV_P, BV_M, BV_G or BV_J, base count, ruby count, BV_LEFT_NONE,
 *                                      BV_LEFT_M, BV_LEFT_G or BV_LEFT_J, left count
 *   runs, lruns                        the J runs, and the left runs, one after the other
 *   base, ruby, left                   result: a position for each base, each ruby and each left character
 *   lines                              result: for each line the count of base characters up to its end
 *
 * "Where a kind's fields come in several lists, its count is the shortest list's length." A count that a kind does not show
 * (both of P, the base count of M, the ruby count of J) is not read. The base and the line list need as many entries as there
 * are base characters, the ruby list as many as there are ruby characters, the left list as many as there are left ones; else
 * the job is refused with number 12.
 *
 * Of a ratio a is for the gap in front of the string, m for each gap between two of its characters, c for the gap behind it.
 * Each is 0 to 7, and not all three are 0; else the job is refused with number 15, after 1 and before 2. 1:2:1 is the usual
 * ratio and what a sheet of form one means; 0:0:1 is shoulder-set, no space before, none between, all after:
 *
 *     static const uint32_t usual[3] = {1, 2, 1}, shoulder[3] = {0, 0, 1};
 *
 * A ratio reaches only what is spread: in a G, and in a J that is set as G, the shorter ruby if it is kana-like and the
 * shorter base if it is kana-like. All else is centred whatever the ratios are: M, a part of one character of a J that is
 * cut, shorter Western ruby, shorter Western base, and J runs over their own characters. With m = 0 the gap behind takes
 * what the one in front leaves; so it does where one character is spread, which is centred if a and c are both 0. The limit
 * of half an em at either end, for ruby of two or more characters, kana-like over kana-like, holds only if m is not 0. Left
 * characters are ruby to all of this.
 *
 * Profile 0 is what a sheet of form one means: ruby may lie on the blanks of the plain elements just before and just after it,
 * as document 01 says, and on no space that is the job's first character. Profile 1, for older children, permits all
 * that, and ruby may also lie on a kana, class 15 or 16, that is a plain element just before or just after it: to half an em,
 * and at most the kana's width. Small kana and the prolonged sound mark, classes 11 and 10, take none, nor does a kana with a
 * reading of its own. Any other profile is refused with number 20, after 15 and before 2.
 *
 * A left reading stands on the other side of its word, such as a gloss. BV_LEFT_M is taken by M and J, BV_LEFT_G by G and J,
 * BV_LEFT_J by J; any other left kind of these on an element is refused with number 16, on a P too, and a number that is no left
 * kind with 5. An element with a left reading has a right one too. Left kind and left count are fields of the element, so the
 * element count is the shortest of five lists. How many left characters an element takes is said by
 *
 *     eleft, 1 to 64                     of BV_LEFT_G, and of BV_LEFT_M on an M
 *     lruns, each at least 1, 64 in all  of BV_LEFT_M and BV_LEFT_J on a J: a left run for each of its base characters. Left runs
 *                                        are read as J runs are: one past the end of the list is 0, and spare ones are not read
 *
 * and nothing is read of BV_LEFT_NONE, nor of any left kind on a P. (16 comes after 5, so counts are judged of a left kind that M
 * or G does not take as well: of BV_LEFT_G by eleft, of the others by lruns.) How the two readings are set:
 *
 *     M with a left M   all three strings solid, each centred on the longest
 *     J with a left M   as one such M for each character, each an element to the clearance rules: a gloss can open the word
 *     G with a left G   if neither reading is longer than the base, each as a group alone; else the longer one with the base, and
 *                       the other over the longer one's length
 *     J with a left G   as G with a left G, and it is not cut by a line's end
 *     J with a left J   if a run on either side is longer than one em, as G with a left G, and it is not cut; else each run over
 *                       its own character, and it is cut as any other J
 *
 * A left reading keeps off the blocks of all other elements, but for the depths above, and off other left readings; it does not
 * keep off right ones. Numbers 2, 3, 5, 6, 9, 10 and 12 hold for left characters as for right ones, right ones first. A job
 * without left readings has BV_LEFT_NONE for each element; its eleft is not read, so that any list as long will do, such as
 * eruby, and lclass, lwidth, lruns and left have the length 0.
 *
 * A refusal alters no list. On success, entries past those used stay as they were.
 */
bv_answer bv_set_job(
    uint32_t em,
    uint32_t measure,
    const uint32_t *ruby_ratio,
    const uint32_t *base_ratio,
    uint32_t profile,
    const uint32_t *class_, size_t class_length,
    const uint32_t *width, size_t width_length,
    const uint32_t *before, size_t before_length,
    const uint32_t *after, size_t after_length,
    const uint32_t *flag, size_t flag_length,
    const uint32_t *rclass, size_t rclass_length,
    const uint32_t *rwidth, size_t rwidth_length,
    const uint32_t *lclass, size_t lclass_length,
    const uint32_t *lwidth, size_t lwidth_length,
    const uint32_t *kind, size_t kind_length,
    const uint32_t *ebase, size_t ebase_length,
    const uint32_t *eruby, size_t eruby_length,
    const uint32_t *lkind, size_t lkind_length,
    const uint32_t *eleft, size_t eleft_length,
    const uint32_t *runs, size_t runs_length,
    const uint32_t *lruns, size_t lruns_length,
    uint32_t *base, size_t base_length,
    uint32_t *ruby, size_t ruby_length,
    uint32_t *left, size_t left_length,
    uint32_t *lines, size_t lines_length);

/*
 * The reasons of an account. The first that holds the element where it stands is named, in the order of the rules and of each
 * reason the right side before the left: 1, 2, 3, 7, 4, 8, 5, 9, 6, 10.
 */
#define BV_BY_START 1       /* its block stands at the line's start (rule 4) */
#define BV_BY_BLOCK 2       /* its block touches the block before (rule 1) */
#define BV_BY_UNDER 3       /* the ruby of the element before reaches its block, but for the depth (rule 2) */
#define BV_BY_OVER 4        /* its ruby reaches the block before, but for the depth (rule 2) */
#define BV_BY_RUBY 5        /* its ruby touches an earlier ruby (rule 3) */
#define BV_BY_EDGE 6        /* its ruby stands at the line's start (rule 4) */
#define BV_BY_LEFT_UNDER 7  /* as 3, of the left ruby of the element before */
#define BV_BY_LEFT_OVER 8   /* as 4, of its left ruby */
#define BV_BY_LEFT_RUBY 9   /* as 5, of its left ruby and an earlier left one */
#define BV_BY_LEFT_EDGE 10  /* as 6, of its left ruby */

/* A row of an account: its numbers, by their place in the row. All lengths are in half units. */
#define BV_ROW 6
#define BV_ROW_ELEMENT 0 /* the element's index in the job */
#define BV_ROW_START 1   /* where its block starts */
#define BV_ROW_GAP 2     /* from the end of the block before it, or from the line's start */
#define BV_ROW_REASON 3  /* BV_BY_START to BV_BY_LEFT_EDGE */
#define BV_ROW_OTHER 4   /* the other element's index in the job; 0 where there is none */
#define BV_ROW_DEPTH 5   /* how deep ruby lies on the block, of reasons of rule 2; else 0 */

/*
 * The account of a job: why each gap of its lines is as wide as it is. The job is given, checked and refused as in bv_set_job,
 * with the same two ratios and the same profile.
 *
 *   rows    result: BV_ROW numbers for each element of each line, in order; the parts of a cut J are told each in its own line,
 *           and of a J with a left M each character, all with the J's index
 *   told    result: for each line the count of rows up to its end
 *   extents result: for each line its extent
 *
 * rows needs BV_ROW entries for each base character, told and extents one; else the job is refused with number 12. A refusal
 * alters no list. On success, entries past those used stay as they were.
 */
bv_answer bv_account_job(
    uint32_t em,
    uint32_t measure,
    const uint32_t *ruby_ratio,
    const uint32_t *base_ratio,
    uint32_t profile,
    const uint32_t *class_, size_t class_length,
    const uint32_t *width, size_t width_length,
    const uint32_t *before, size_t before_length,
    const uint32_t *after, size_t after_length,
    const uint32_t *flag, size_t flag_length,
    const uint32_t *rclass, size_t rclass_length,
    const uint32_t *rwidth, size_t rwidth_length,
    const uint32_t *lclass, size_t lclass_length,
    const uint32_t *lwidth, size_t lwidth_length,
    const uint32_t *kind, size_t kind_length,
    const uint32_t *ebase, size_t ebase_length,
    const uint32_t *eruby, size_t eruby_length,
    const uint32_t *lkind, size_t lkind_length,
    const uint32_t *eleft, size_t eleft_length,
    const uint32_t *runs, size_t runs_length,
    const uint32_t *lruns, size_t lruns_length,
    uint32_t *rows, size_t rows_length,
    uint32_t *told, size_t told_length,
    uint32_t *extents, size_t extents_length);

/*
 * A job whose lists of one kind have one length, as most callers have it. All that is said of bv_set_job holds of it: a pointer is
 * not null, also where its length is 0.
 */
typedef struct bv_job {
    uint32_t em, measure;
    const uint32_t *ruby_ratio, *base_ratio;
    uint32_t profile;
    size_t bases;
    const uint32_t *class_, *width, *before, *after, *flag;
    size_t rubies;
    const uint32_t *rclass, *rwidth;
    size_t lefts;
    const uint32_t *lclass, *lwidth;
    size_t elements;
    const uint32_t *kind, *ebase, *eruby, *lkind, *eleft;
    size_t runs_length;
    const uint32_t *runs;
    size_t lruns_length;
    const uint32_t *lruns;
} bv_job;

/* The result lists of a setting, and those of an account, with their lengths. */
typedef struct bv_places {
    size_t base_length, ruby_length, left_length, lines_length;
    uint32_t *base, *ruby, *left, *lines;
} bv_places;

typedef struct bv_reasons {
    size_t rows_length, told_length, extents_length;
    uint32_t *rows, *told, *extents;
} bv_reasons;

/* bv_set_job of such a job. */
BV_INLINE bv_answer bv_set(const bv_job *j, const bv_places *to)
{
    return bv_set_job(j->em, j->measure, j->ruby_ratio, j->base_ratio, j->profile, j->class_, j->bases, j->width, j->bases,
                      j->before, j->bases, j->after, j->bases, j->flag, j->bases, j->rclass, j->rubies, j->rwidth, j->rubies,
                      j->lclass, j->lefts, j->lwidth, j->lefts, j->kind, j->elements, j->ebase, j->elements, j->eruby,
                      j->elements, j->lkind, j->elements, j->eleft, j->elements, j->runs, j->runs_length, j->lruns,
                      j->lruns_length, to->base, to->base_length, to->ruby, to->ruby_length, to->left, to->left_length,
                      to->lines, to->lines_length);
}

/* bv_account_job of such a job. */
BV_INLINE bv_answer bv_account(const bv_job *j, const bv_reasons *to)
{
    return bv_account_job(j->em, j->measure, j->ruby_ratio, j->base_ratio, j->profile, j->class_, j->bases, j->width, j->bases,
                          j->before, j->bases, j->after, j->bases, j->flag, j->bases, j->rclass, j->rubies, j->rwidth,
                          j->rubies, j->lclass, j->lefts, j->lwidth, j->lefts, j->kind, j->elements, j->ebase, j->elements,
                          j->eruby, j->elements, j->lkind, j->elements, j->eleft, j->elements, j->runs, j->runs_length,
                          j->lruns, j->lruns_length, to->rows, to->rows_length, to->told, to->told_length, to->extents,
                          to->extents_length);
}

/*
 * Room for the answer to any sheet: a result is proved never to be longer than 108,561 bytes, an account than 119,871.
 */
#define BV_MOST_TEXT 131072

/*
 * Sets a job sheet of `length` bytes, as the setting program does, and writes what the program writes, `refused N P` or the
 * result, to the front of `out`. `out` has room for BV_MOST_TEXT bytes, always; those past the answer stay as they were.
 * A sheet of form two has ratios, a profile and left readings; one of form one has none: its job is set with 1:2:1 for both and
 * with profile 0. Returns the length of the answer in bytes.
 */
size_t bv_set_sheet(const uint8_t *sheet, size_t length, uint8_t *out);

/*
 * The account of a job sheet, as the account program writes it (docs/MANUAL.md): `clear` with the page's counts and a line for each
 * element, or `refused N P`. As above otherwise.
 */
size_t bv_account_sheet(const uint8_t *sheet, size_t length, uint8_t *out);

#ifdef __cplusplus
}
#endif

#endif
