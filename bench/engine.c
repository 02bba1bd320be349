/*
 * A plain C engine of the same algorithm as the proved one, written by hand for speed and proved by nobody. It is there to
 * be measured against (README.md). What goes over the elements is in sides.h; here are the entry point and the door's checks of
 * characters.
 *
 * Sentences in quotation marks are document 01's, those about ratios, profiles and left readings document 02's.
 */
#define SIDES 1
#include "sides.h"

static size_t fewer(size_t a, size_t b)
{
    return a < b ? a : b;
}

/* ---- The door: characters ---- */

/* Number 3 of any character. */
static int is_wrong(u32 c, u32 w)
{
    return c > 31 || !is_in(ACCEPTED, c) || w - 1 > 4095;
}

/* Number 4 of a character whose class is accepted. */
static int are_wrong(u32 c, u32 w, u32 before, u32 after)
{
    if (before != 0 && !is_in(BEFORE, c))
        return 1;
    if (after != 0 && !is_in(AFTER, c))
        return 1;
    return before > w || after > w - before;
}

/* The first character of a side that number 3 refuses, or how many there are. */
static u32 first_wrong(const struct side *side)
{
    u32 i;
    for (i = 0; i < side->count; i++)
        if (is_wrong(side->class_[i], side->width[i]))
            break;
    return i;
}

/* Numbers 3 and 4: "base characters and then ruby characters in turn, 3 before 4", right ones first. */
static bv_answer check_characters(const struct job *j)
{
    u32 i;
    for (i = 0; i < j->bases; i++) {
        u32 c = j->class_[i], w = j->width[i], before = j->before[i], after = j->after[i];
        if (is_wrong(c, w) || j->flag[i] > 1)
            return answer(3, i);
        if ((before | after) != 0 && are_wrong(c, w, before, after))
            return answer(4, i);
    }
    i = first_wrong(&j->side[RIGHT]);
    if (i < j->side[RIGHT].count)
        return answer(3, 1024 + i);
    i = first_wrong(&j->side[LEFT]);
    if (i < j->side[LEFT].count)
        return answer(3, 3072 + i);
    return answer(0, 0);
}

/* ---- The entry point ---- */

/* Number 15: "a ratio number over 7 or all three 0". */
static int is_no_ratio(const u32 *ratio)
{
    return (ratio[0] | ratio[1] | ratio[2]) - 1 > 6;
}

static struct ratio ratio_of(const u32 *ratio)
{
    struct ratio by;
    by.a = 2 * ratio[0];
    by.c = 2 * ratio[2];
    by.m = ratio[1];
    by.rest = ratio[0] + ratio[2] - ratio[1]; /* may pass below 0; m n + rest does not */
    by.uneven = ratio[0] != ratio[2];
    return by;
}

/* Whether an element has a left kind. */
static int has_left(const struct job *j)
{
    u32 other = 0, k;
    for (k = 0; k < j->elements; k++)
        other |= j->lkind[k] ^ BV_LEFT_NONE;
    return other != 0;
}

static void put_side(struct side *side, u32 count, const u32 *class_, const u32 *width, const u32 *runs, size_t runs_length)
{
    side->count = count;
    side->runs_length = runs_length;
    side->class_ = class_;
    side->width = width;
    side->runs = runs;
}

bv_answer bv_set_job(
    uint32_t em, uint32_t measure, const uint32_t *ruby_ratio, const uint32_t *base_ratio, uint32_t profile,
    const uint32_t *class_, size_t class_length, const uint32_t *width, size_t width_length,
    const uint32_t *before, size_t before_length, const uint32_t *after, size_t after_length,
    const uint32_t *flag, size_t flag_length,
    const uint32_t *rclass, size_t rclass_length, const uint32_t *rwidth, size_t rwidth_length,
    const uint32_t *lclass, size_t lclass_length, const uint32_t *lwidth, size_t lwidth_length,
    const uint32_t *kind, size_t kind_length, const uint32_t *ebase, size_t ebase_length,
    const uint32_t *eruby, size_t eruby_length, const uint32_t *lkind, size_t lkind_length,
    const uint32_t *eleft, size_t eleft_length,
    const uint32_t *runs, size_t runs_length, const uint32_t *lruns, size_t lruns_length,
    uint32_t *base, size_t base_length, uint32_t *ruby, size_t ruby_length, uint32_t *left, size_t left_length,
    uint32_t *lines, size_t lines_length)
{
    struct job j;
    struct results to;
    bv_answer a;
    size_t bases = fewer(fewer(fewer(class_length, width_length), fewer(before_length, after_length)), flag_length);
    size_t rubies = fewer(rclass_length, rwidth_length), lefts = fewer(lclass_length, lwidth_length);
    size_t elements = fewer(fewer(fewer(kind_length, ebase_length), eruby_length), fewer(lkind_length, eleft_length));
    if (em % 2 == 1 || em - 2 > 4094)
        return answer(1, 0);
    if (measure - 1 > 3999999)
        return answer(1, 1);
    if (is_no_ratio(ruby_ratio))
        return answer(15, 0);
    if (is_no_ratio(base_ratio))
        return answer(15, 1);
    if (profile > 1)
        return answer(20, 0);
    if (bases > BV_MOST_BASE)
        return answer(2, 0);
    if (rubies > BV_MOST_RUBY)
        return answer(2, 1);
    if (elements > BV_MOST_ELEMENTS)
        return answer(2, 2);
    if (lefts > BV_MOST_LEFT)
        return answer(2, 3);
    if (base_length < bases || lines_length < bases || ruby_length < rubies || left_length < lefts)
        return answer(12, 0);
    j.em = em;
    j.limit = 2 * measure;
    j.over = ratio_of(ruby_ratio);
    j.under = ratio_of(base_ratio);
    j.most = j.over.m != 0 ? em : 0xffffffff;
    j.on_kana = profile == 1 ? em : 0;
    j.bases = (u32)bases;
    j.elements = (u32)elements;
    j.class_ = class_;
    j.width = width;
    j.before = before;
    j.after = after;
    j.flag = flag;
    put_side(&j.side[RIGHT], (u32)rubies, rclass, rwidth, runs, runs_length);
    put_side(&j.side[LEFT], (u32)lefts, lclass, lwidth, lruns, lruns_length);
    j.kind = kind;
    j.ebase = ebase;
    j.eruby = eruby;
    j.lkind = lkind;
    j.eleft = eleft;
    a = check_characters(&j);
    if (a.number)
        return a;
    to.base = base;
    to.ruby[RIGHT] = ruby;
    to.ruby[LEFT] = left;
    to.lines = lines;
    return has_left(&j) ? set_with_left(&j, &to) : set_elements(&j, &to);
}
