/*
 * All that goes over the elements of a job whose characters have passed the door, over SIDES sides, as the file says that includes
 * this: engine.c has 1, for jobs without left readings, left.c has 2. First the elements are judged. Then line after line is
 * filled, one pass over the elements for each, which stops once a whole element passes the measure and never at a failed part of
 * a J; the line ends are kept until the job is known to be accepted; then one pass writes. All positions are half units.
 */
#include "engine.h"

/*
 * Where a walk over the elements stands: before element k, those before which took b base characters and of each side r
 * characters and u runs.
 */
struct cursor {
    u32 k, b, r[SIDES], u[SIDES];
};

/* A string in a word: where it starts and ends, the space within it. */
struct string {
    u32 from, upto, in;
    int by_runs; /* of a reading: each run stands solid over its own character */
};

/* A word in its own coordinates: block [front, front + len) with the space within it, and the reading of each side. */
struct word {
    u32 front, len, inbase;
    struct string read[SIDES];
#if SIDES == 2
    int left; /* there is a left reading */
#endif
};

#if SIDES == 2
#define HAS(w, side) ((side) == RIGHT || (w)->left)
#define PUT_LEFT(w, there) ((w)->left = (there))
#else
#define HAS(w, side) 1
#define PUT_LEFT(w, there) ((void)0)
#endif

/*
 * What the line so far asks of the next element: the end of its last block and of each side the furthest end of its rubies.
 * Whether ruby may lie on its last element is asked only where a word follows: `plain` is that element, if a P, counted from 1.
 */
struct state {
    u32 end, reach[SIDES], plain;
};

static const struct cursor first_element;
static const struct state line_start;

static bv_answer answer(u32 number, u32 place)
{
    bv_answer a;
    a.number = number;
    a.place = place;
    return a;
}

static u32 larger(u32 a, u32 b)
{
    return a < b ? b : a;
}

static u32 smaller(u32 a, u32 b)
{
    return a < b ? a : b;
}

static u32 sum_of(const u32 *ws, u32 n)
{
    u32 s = 0, i;
    SHORT_LOOP
    for (i = 0; i < n; i++)
        s += ws[i];
    return s;
}

/* Whether a class is in one of the sets. */
static u32 is_in(u32 set, u32 c)
{
    return set >> c & 1;
}

/* ---- The door: elements ---- */

/* The set of a string's classes. */
static u32 classes_of(const u32 *classes, u32 n)
{
    u32 set = 0, i;
    SHORT_LOOP
    for (i = 0; i < n; i++)
        set |= CLASS(classes[i]);
    return set;
}

/* Number 9: "class 26, or Western and kana-like mixed". */
static int is_mixed(u32 set)
{
    return (set & SPACE) || ((set & KANA) && (set & WESTERN));
}

/* Numbers 7, 9 and 10 of a G. */
static u32 check_group(const struct job *j, u32 b, u32 n, u32 r, u32 m)
{
    u32 blanks = 0, base = 0, ruby, i;
    SHORT_LOOP
    for (i = b; i < b + n; i++) {
        blanks |= j->before[i] | j->after[i];
        base |= CLASS(j->class_[i]);
    }
    if (blanks)
        return 7;
    ruby = classes_of(j->side[RIGHT].class_ + r, m);
    if (is_mixed(base) || is_mixed(ruby))
        return 9;
    if ((base & WESTERN) && (ruby & WESTERN))
        return 10;
    return 0;
}

/* Numbers 7, 8 and 9 of a J. */
static u32 check_jukugo(const struct job *j, u32 b, u32 n, u32 r, u32 m)
{
    u32 blanks = 0, set = 0, other = 0, i;
    SHORT_LOOP
    for (i = b; i < b + n; i++) {
        blanks |= j->before[i] | j->after[i];
        set |= CLASS(j->class_[i]);
        other |= j->width[i] ^ j->em;
    }
    if (blanks)
        return 7;
    if ((set & ~KANA) || other)
        return 8;
    if (is_mixed(classes_of(j->side[RIGHT].class_ + r, m)))
        return 9;
    return 0;
}

/* How many characters the n runs from u of a side take; 0 where they are out of range. */
static u32 runs_from(const struct side *side, u32 u, u32 n)
{
    u32 sum = 0, i;
    if (side->runs_length < (size_t)u + n)
        return 0; /* "a J run past the end of its list reads as 0" */
    for (i = 0; i < n; i++) {
        u32 run = side->runs[u + i];
        if (run - 1 > 63)
            return 0;
        sum += run;
    }
    return sum <= 64 ? sum : 0;
}

#if SIDES == 2

/* How many left characters element k has, of n base characters, with its left runs from u; 0 where it is 5. */
static u32 count_left(const struct job *j, u32 k, u32 n, u32 u)
{
    const u32 left = j->lkind[k];
    if (left == BV_LEFT_G || (left == BV_LEFT_M && j->kind[k] == BV_M))
        return j->eleft[k] - 1 > 63 ? 0 : j->eleft[k];
    return left == BV_LEFT_M || left == BV_LEFT_J ? runs_from(&j->side[LEFT], u, n) : 0;
}

/* Numbers 9 and 10 of m left characters from r; `why` is what the rest of the element has, or 0. All of 9 comes before 10. */
static u32 check_left(const struct job *j, u32 k, u32 b, u32 r, u32 m, u32 why)
{
    const u32 set = classes_of(j->side[LEFT].class_ + r, m);
    if (j->kind[k] == BV_M || (why != 0 && why != 10))
        return why;
    if (is_mixed(set))
        return 9;
    return (set & WESTERN) && is_in(WESTERN, j->class_[b]) ? 10 : why;
}

#endif

/* Numbers 5 to 10 and 16: "elements in turn, in the table's order from 5; then leftover characters"; "16 .. after 5". */
static bv_answer check_elements(const struct job *j)
{
    const struct side *side = &j->side[RIGHT];
    u32 b = 0, r = 0, u = 0, k;
#if SIDES == 2
    u32 l = 0, v = 0; /* left characters and left runs that are taken */
#else
    const u32 l = 0;
#endif
    for (k = 0; k < j->elements; k++) {
        u32 kind = j->kind[k], n = 1, m, why;
#if SIDES == 2
        u32 left = j->lkind[k], own = 0;
#endif
        if (kind == BV_P) {
#if SIDES == 2
            if (left != BV_LEFT_NONE)
                return answer(left == BV_LEFT_M || left == BV_LEFT_G || left == BV_LEFT_J ? 16 : 5, k);
#endif
            if (b == j->bases)
                return answer(6, k);
            b++;
            continue;
        }
        switch (kind) {
        case BV_M:
            m = j->eruby[k];
            if (m - 1 > 63)
                return answer(5, k);
            break;
        case BV_G:
            n = j->ebase[k];
            m = j->eruby[k];
            if (n - 1 > 31 || m - 1 > 63)
                return answer(5, k);
            break;
        case BV_J:
            n = j->ebase[k];
            if (n - 1 > 31)
                return answer(5, k);
            m = runs_from(side, u, n);
            if (m == 0)
                return answer(5, k);
            u += n;
            break;
        default:
            return answer(5, k);
        }
#if SIDES == 2
        if (left != BV_LEFT_NONE) {
            own = count_left(j, k, n, v);
            if (own == 0)
                return answer(5, k);
            if (kind != BV_J && left != kind)
                return answer(16, k);
            if (own > j->side[LEFT].count - l)
                return answer(6, k);
        }
#endif
        if (n > j->bases - b || m > side->count - r)
            return answer(6, k);
        why = kind == BV_M ? ((j->before[b] | j->after[b]) != 0 ? 7 : 0)
            : kind == BV_G ? check_group(j, b, n, r, m) : check_jukugo(j, b, n, r, m);
#if SIDES == 2
        if (own != 0)
            why = check_left(j, k, b, l, own, why);
        l += own;
        v += kind == BV_J && (left == BV_LEFT_M || left == BV_LEFT_J) ? n : 0;
#endif
        if (why)
            return answer(why, k);
        b += n;
        r += m;
    }
    if (b < j->bases || r < side->count || l < j->side[LEFT].count)
        return answer(6, j->elements);
    return answer(0, 0);
}

/* ---- Level one: the word alone ---- */

#define SOLID 0
#define SPREAD 1
#define LIMITED 2

/* The gaps at the ends of the shorter string. What is left of the 2D half units of space is within it. */
struct gaps {
    u32 front, rear;
};

/*
 * "With S = a + m(n - 1) + c, the front gap is floor(2D * a / S), the rear gap floor(2D * c / S)". With one character, or with
 * m = 0, the rear gap takes what is left; one character is centred if a and c are 0, and so it is wherever they are equal. Then,
 * too, one division does for both gaps, and with m = 0 it gives D. "The half-em limit stays where it stood, at either end, and
 * only if m is not 0." D is at most 262,144, so that no product is too large.
 */
WITHIN static struct gaps gaps_of(int way, u32 most, const struct ratio *by, u32 d, u32 n)
{
    struct gaps g;
    u32 s;
    g.front = g.rear = d;
    if (way == SOLID)
        return g;
    if (n == 1) {
        if (by->uneven) {
            g.front = d * by->a / (by->m + by->rest);
            g.rear = 2 * d - g.front;
        }
        return g;
    }
    s = by->m * n + by->rest;
    g.front = d * by->a / s;
    if (way == LIMITED)
        g.front = smaller(g.front, most);
    g.rear = g.front;
    if (by->uneven) {
        g.rear = by->m == 0 ? 2 * d - g.front : d * by->c / s;
        if (way == LIMITED)
            g.rear = smaller(g.rear, most);
    }
    return g;
}

/* The word of base and ruby of b and r units, n and m characters, by the way of each where it is the shorter. */
WITHIN static void word_by(struct word *w, int ruby, int base, const struct job *j, u32 b, u32 n, u32 r, u32 m)
{
    struct gaps g;
    struct string *x = &w->read[RIGHT];
    PUT_LEFT(w, 0);
    x->by_runs = 0;
    if (r <= b) {
        g = gaps_of(ruby, j->most, &j->over, b - r, m);
        x->in = 2 * (b - r) - g.front - g.rear;
        w->inbase = 0;
        w->front = 0;
        w->len = 2 * b;
        x->from = g.front;
        x->upto = 2 * b - g.rear;
    } else {
        g = gaps_of(base, j->most, &j->under, r - b, n);
        w->inbase = 2 * (r - b) - g.front - g.rear;
        x->in = 0;
        w->front = g.front;
        w->len = 2 * r - g.front - g.rear;
        x->from = 0;
        x->upto = 2 * r;
    }
}

/* "M: always solid." */
static void mono(struct word *w, const struct job *j, u32 b, u32 r, u32 m)
{
    word_by(w, SOLID, SOLID, j, j->width[b], 1, sum_of(j->side[RIGHT].width + r, m), m);
}

/* How a side's characters from r are set over base that is `western` or not. After the door the first speaks for a string. */
static int ruby_way(const struct side *side, u32 r, u32 western)
{
    return is_in(WESTERN, side->class_[r]) ? SOLID : western ? SPREAD : LIMITED;
}

/* A G, or a J with a run longer than one em. */
WITHIN static void group(struct word *w, const struct job *j, u32 b, u32 n, u32 r, u32 m)
{
    u32 western = is_in(WESTERN, j->class_[b]);
    int ruby = ruby_way(&j->side[RIGHT], r, western);
    int base = western ? SOLID : SPREAD;
    word_by(w, ruby, base, j, sum_of(j->width + b, n), n, sum_of(j->side[RIGHT].width + r, m), m);
}

/* "If any is longer, the whole is set as G." */
APART static void jukugo_as_group(struct word *w, const struct job *j, u32 b, u32 n, u32 r, u32 m)
{
    group(w, j, b, n, r, m);
}

/* "J: if no run is longer than one em, each run is solid over its own character." Returns how many ruby characters it has. */
static u32 jukugo(struct word *w, const struct job *j, u32 b, u32 n, u32 r, u32 u)
{
    const u32 em = j->em;
    const struct side *side = &j->side[RIGHT];
    u32 at = r, first = 0, last = 0, i;
    for (i = 0; i < n; i++) {
        u32 run = side->runs[u + i];
        last = sum_of(side->width + at, run);
        if (last > em) {
            run = sum_of(side->runs + u, n);
            jukugo_as_group(w, j, b, n, r, run);
            return run;
        }
        if (i == 0)
            first = last;
        at += run;
    }
    PUT_LEFT(w, 0);
    w->read[RIGHT].by_runs = 1;
    w->inbase = w->read[RIGHT].in = w->front = 0;
    w->len = 2 * n * em; /* each of its characters is one em wide */
    w->read[RIGHT].from = em - first;
    w->read[RIGHT].upto = w->len - (em - last);
    return at - r;
}

/*
 * n of the `all` base characters of a J: "a part of one character is set as M, a part of more as J". A J of one character is
 * no part: with a run longer than one em it is set as G, which differs from M by the front gap. Returns how many ruby
 * characters it has.
 */
static u32 part(struct word *w, const struct job *j, u32 b, u32 n, u32 all, u32 r, u32 u)
{
    u32 run;
    if (n > 1)
        return jukugo(w, j, b, n, r, u);
    run = j->side[RIGHT].runs[u];
    mono(w, j, b, r, run);
    if (w->front != 0 && j->under.uneven && all == 1)
        w->front = w->front * j->under.a / (j->under.m + j->under.rest);
    return run;
}

#if SIDES == 2

/* A string of s units and n characters in a word that is as long as its longest string, `whole` units. */
static struct string string_in(int way, u32 most, const struct ratio *by, u32 whole, u32 s, u32 n)
{
    struct string x = {0, 0, 0, 0};
    x.upto = 2 * whole;
    if (s < whole) {
        struct gaps g = gaps_of(way, most, by, whole - s, n);
        x.from = g.front;
        x.upto -= g.rear;
        x.in = 2 * (whole - s) - g.front - g.rear;
    }
    return x;
}

/* The characters of a word: n of base from b, and of each side m from r. */
struct piece {
    u32 b, n, r[SIDES], m[SIDES];
};

/*
 * A word with two readings. "Mono with mono is solid and centred on both sides"; of two groups "the longer reading is set with the
 * base by document 01, and the other is then set as a shorter or equal ruby over a base of the longer one's length and the base's
 * own kind". So each string is set over the length of the longest, the base by its own way and each reading by the ruby's.
 */
WITHIN static void both(struct word *w, int solid, const struct job *j, const struct piece *p)
{
    const u32 base = sum_of(j->width + p->b, p->n), western = is_in(WESTERN, j->class_[p->b]);
    struct string x;
    u32 sum[SIDES], whole = base;
    int side;
    for (side = RIGHT; side < SIDES; side++) {
        sum[side] = sum_of(j->side[side].width + p->r[side], p->m[side]);
        whole = larger(whole, sum[side]);
    }
    x = string_in(solid || western ? SOLID : SPREAD, j->most, &j->under, whole, base, p->n);
    w->front = x.from;
    w->len = x.upto - x.from;
    w->inbase = x.in;
    w->left = 1;
    for (side = RIGHT; side < SIDES; side++) {
        int way = solid ? SOLID : ruby_way(&j->side[side], p->r[side], western);
        w->read[side] = string_in(way, j->most, &j->over, whole, sum[side], p->m[side]);
    }
}

APART static void monos(struct word *w, const struct job *j, const struct piece *p)
{
    both(w, 1, j, p);
}

APART static void groups(struct word *w, const struct job *j, const struct piece *p)
{
    both(w, 0, j, p);
}

/* The left reading of a part of a J whose left runs are none longer than one em; how many characters it has. */
static u32 left_runs(struct word *w, const struct job *j, u32 n, u32 r, u32 u)
{
    const struct side *side = &j->side[LEFT];
    u32 m = sum_of(side->runs + u, n), last = side->runs[u + n - 1];
    struct string *x = &w->read[LEFT];
    w->left = 1;
    x->by_runs = 1;
    x->in = 0;
    x->from = j->em - sum_of(side->width + r, side->runs[u]);
    x->upto = w->len - (j->em - sum_of(side->width + r + m - last, last));
    return m;
}

/* Whether one of n runs from u, with their characters from r, is longer than one em. */
static int has_long(const struct job *j, const struct side *side, u32 n, u32 r, u32 u)
{
    u32 i;
    for (i = 0; i < n; i++) {
        if (sum_of(side->width + r, side->runs[u + i]) > j->em)
            return 1;
        r += side->runs[u + i];
    }
    return 0;
}

/* "A J with a left G, or with a left J and a run longer than one em on either side, is taken as group on both sides". */
static int is_group(const struct job *j, const struct cursor *at)
{
    const u32 left = j->lkind[at->k], n = j->ebase[at->k];
    if (left != BV_LEFT_J)
        return left == BV_LEFT_G;
    return has_long(j, &j->side[RIGHT], n, at->r[RIGHT], at->u[RIGHT]) || has_long(j, &j->side[LEFT], n, at->r[LEFT], at->u[LEFT]);
}

/* The word at a cursor that has a left reading and is not cut; the cursor goes behind it. */
static struct piece word_with_left(struct word *w, const struct job *j, struct cursor *at)
{
    const u32 kind = j->kind[at->k], left = j->lkind[at->k];
    struct piece p;
    p.b = at->b;
    p.n = kind == BV_M ? 1 : j->ebase[at->k];
    p.r[RIGHT] = at->r[RIGHT];
    p.r[LEFT] = at->r[LEFT];
    p.m[RIGHT] = kind == BV_J ? sum_of(j->side[RIGHT].runs + at->u[RIGHT], p.n) : j->eruby[at->k];
    p.m[LEFT] = left == BV_LEFT_J ? sum_of(j->side[LEFT].runs + at->u[LEFT], p.n) : j->eleft[at->k];
    if (left == BV_LEFT_M)
        monos(w, j, &p);
    else
        groups(w, j, &p);
    at->k++;
    at->b += p.n;
    at->r[RIGHT] += p.m[RIGHT];
    at->r[LEFT] += p.m[LEFT];
    at->u[RIGHT] += kind == BV_J ? p.n : 0;
    at->u[LEFT] += left == BV_LEFT_J ? p.n : 0;
    return p;
}

/* Whether the element at a cursor is such a word. */
static int is_with_left(const struct job *j, const struct cursor *at, u32 kind)
{
    return j->lkind[at->k] != BV_LEFT_NONE && (kind != BV_J || is_group(j, at));
}

#endif

/* ---- Level two: the four rules of clearance ---- */

/*
 * How deep ruby may lie on the P character b, of whose classes `side` may have a blank of this many units there. A space that is
 * the job's first character takes none. On a kana it is by the profile "at most one ruby em (half the em) and at most
 * its width", or none.
 */
static u32 depth_of(const struct job *j, u32 b, u32 side, u32 blank)
{
    u32 c = j->class_[b], most = is_in(QUARTER, c) ? j->em / 2 : j->em;
    if (is_in(WHOLE, c))
        return b == 0 ? 0 : smaller(2 * j->width[b], most);
    if (is_in(TRUE_KANA, c))
        return smaller(2 * j->width[b], j->on_kana);
    return is_in(side, c) ? smaller(2 * blank, most) : 0;
}

/* The furthest end of rubies on any side. */
static u32 reach_of(const struct state *st)
{
    u32 reach = st->reach[RIGHT];
    int side;
    for (side = RIGHT + 1; side < SIDES; side++)
        reach = larger(reach, st->reach[side]);
    return reach;
}

/*
 * The P character b after the line so far; its origin. A depth is at most the width, so of the four bounds two are left; the
 * one by ruby is asked only where ruby reaches past the last block.
 */
static u32 place_plain(struct state *st, const struct job *j, u32 b)
{
    u32 at = st->end, reach = reach_of(st);
    if (reach > at) {
        i32 bound = (i32)reach - (i32)depth_of(j, b, BEFORE, j->before[b]);
        if (bound > (i32)at)
            at = (u32)bound;
    }
    st->end = at + 2 * j->width[b];
    st->plain = b + 1;
    return at;
}

/*
 * A word with ruby after the line so far; its origin: "rule 2 holds for each ruby, rule 3 for rubies of one side". A line is left
 * once it passes the measure, so no position here passes 8,000,000 half units by more than one word's length.
 */
static u32 place_word(struct state *st, const struct job *j, const struct word *w)
{
    u32 room = st->plain ? depth_of(j, st->plain - 1, AFTER, j->after[st->plain - 1]) : 0;
    i32 at = (i32)larger(st->end, reach_of(st)) - (i32)w->front;
    int side;
    for (side = RIGHT; side < SIDES; side++) {
        if (HAS(w, side)) {
            i32 ruby = (i32)larger(st->reach[side], st->end - room) - (i32)w->read[side].from;
            at = at < ruby ? ruby : at;
        }
    }
    if (at < 0)
        at = 0;
    st->end = (u32)at + w->front + w->len;
    for (side = RIGHT; side < SIDES; side++)
        if (HAS(w, side))
            st->reach[side] = (u32)at + w->read[side].upto;
    st->plain = 0;
    return (u32)at;
}

static int fits(const struct state *st, u32 limit)
{
    return st->end <= limit && reach_of(st) <= limit;
}

/* ---- Filling ---- */

/*
 * What the line from s has of the J at a cursor: its first base character, of each side its first character and run, and how many
 * of all its base characters.
 */
struct rest {
    u32 k, b, n, all, r[SIDES], u[SIDES];
};

static struct rest rest_of(const struct job *j, u32 s, const struct cursor *at)
{
    struct rest p;
    u32 skipped = at->b < s ? s - at->b : 0;
    p.k = at->k;
    p.b = at->b + skipped;
    p.all = j->ebase[at->k];
    p.n = p.all - skipped;
    p.r[RIGHT] = at->r[RIGHT] + sum_of(j->side[RIGHT].runs + at->u[RIGHT], skipped);
    p.u[RIGHT] = at->u[RIGHT] + skipped;
#if SIDES == 2
    if (j->lkind[at->k] == BV_LEFT_NONE)
        skipped = 0;
    p.r[LEFT] = at->r[LEFT] + sum_of(j->side[LEFT].runs + at->u[LEFT], skipped);
    p.u[LEFT] = at->u[LEFT] + skipped;
#endif
    return p;
}

/* How many characters a part of a J has of each side. */
struct counts {
    u32 m[SIDES];
};

static struct counts part_of(struct word *w, const struct job *j, const struct rest *p, u32 n)
{
    struct counts c;
    c.m[RIGHT] = part(w, j, p->b, n, p->all, p->r[RIGHT], p->u[RIGHT]);
#if SIDES == 2
    c.m[LEFT] = j->lkind[p->k] == BV_LEFT_J ? left_runs(w, j, n, p->r[LEFT], p->u[LEFT]) : 0;
#endif
    return c;
}

/* A cursor behind the rest of a J. */
static struct cursor behind(const struct job *j, const struct rest *p, const struct counts *c)
{
    struct cursor at;
    at.k = p->k + 1;
    at.b = p->b + p->n;
    at.r[RIGHT] = p->r[RIGHT] + c->m[RIGHT];
    at.u[RIGHT] = p->u[RIGHT] + p->n;
#if SIDES == 2
    at.r[LEFT] = p->r[LEFT] + c->m[LEFT];
    at.u[LEFT] = p->u[LEFT] + (j->lkind[p->k] == BV_LEFT_NONE ? 0 : p->n);
#else
    (void)j;
#endif
    return at;
}

/*
 * The furthest inner break of a J whose line can be set, or 0. Each is a try, from the last on, but for those whose block alone
 * passes the measure: each of its base characters is one em wide.
 */
APART static u32 within_jukugo(const struct job *j, const struct state *st, struct rest p)
{
    struct word w;
    const u32 most = st->end < j->limit ? (j->limit - st->end) / (2 * j->em) : 0;
    p.n = smaller(p.n, most + 1);
    while (p.n > 1) {
        struct state next = *st;
        p.n--;
        part_of(&w, j, &p, p.n);
        place_word(&next, j, &w);
        if (fits(&next, j->limit))
            return p.b + p.n;
    }
    return 0;
}

/*
 * The J at a cursor: the state after it goes to `st`, the cursor goes behind it. Returns its furthest break whose line can
 * be set, or 0; `from` becomes where the next line would begin.
 */
APART static u32 pass_jukugo(const struct job *j, u32 s, struct cursor *at, struct state *st, struct cursor *from)
{
    const struct cursor here = *at;
    const struct state before = *st;
    const struct rest p = rest_of(j, s, at);
    struct word w;
    u32 inner;
    if (st->end + 2 * j->em * p.n > j->limit) {
        st->end = j->limit + 1; /* its block alone passes the measure: nothing else of it matters, nor where the cursor is */
    } else {
        struct counts c = part_of(&w, j, &p, p.n);
        *at = behind(j, &p, &c);
        place_word(st, j, &w);
        if (fits(st, j->limit) && (j->flag[at->b - 1] || at->b == j->bases)) {
            *from = *at;
            return at->b;
        }
    }
    inner = within_jukugo(j, &before, p);
    if (inner)
        *from = here;
    return inner;
}

#if SIDES == 2

/* Of each side one run more is passed, and one base character. */
static void step(const struct job *j, struct rest *p)
{
    int side;
    for (side = RIGHT; side < SIDES; side++) {
        p->r[side] += j->side[side].runs[p->u[side]];
        p->u[side]++;
    }
    p->b++;
    p->n--;
}

/* The first character of such a rest: "a J with a mono left reading is set as one such M for each character". */
static struct piece mono_of(struct word *w, const struct job *j, const struct rest *p)
{
    struct piece own;
    int side;
    own.b = p->b;
    own.n = 1;
    for (side = RIGHT; side < SIDES; side++) {
        own.r[side] = p->r[side];
        own.m[side] = j->side[side].runs[p->u[side]];
    }
    monos(w, j, &own);
    return own;
}

/*
 * As pass_jukugo, of a J with a mono left reading. Each of its characters is "an element to the clearance rules": once one passes
 * the measure, so do all behind it.
 */
APART static u32 pass_monos(const struct job *j, u32 s, struct cursor *at, struct state *st, struct cursor *from)
{
    const struct counts none = {{0, 0}};
    struct rest p = rest_of(j, s, at);
    u32 best = 0;
    while (p.n > 0) {
        struct word w;
        mono_of(&w, j, &p);
        place_word(st, j, &w);
        if (!fits(st, j->limit))
            break;
        step(j, &p);
        if (p.n > 0)
            best = p.b;
    }
    if (best)
        *from = *at;
    if (p.n > 0)
        return best;
    *at = behind(j, &p, &none);
    if (j->flag[at->b - 1] || at->b == j->bases) {
        *from = *at;
        best = at->b;
    }
    return best;
}

#define PASS(j, s, at, st, from) (j->lkind[(at)->k] == BV_LEFT_M ? pass_monos : pass_jukugo)(j, s, at, st, from)
#else
#define PASS pass_jukugo
#endif

/*
 * Where the line from s ends: "the furthest permitted break whose line can be set", or 0. `from` is where the line begins,
 * before the element that holds s, and becomes where the next one does.
 */
static u32 line_end(const struct job *j, u32 s, struct cursor *from)
{
    struct cursor at = *from;
    struct state st = line_start;
    u32 best = 0;
    while (at.k < j->elements) {
        u32 kind = j->kind[at.k];
#if SIDES == 2
        if (is_with_left(j, &at, kind)) {
            struct word w;
            word_with_left(&w, j, &at);
            place_word(&st, j, &w);
            if (!fits(&st, j->limit))
                return best;
            if (j->flag[at.b - 1] || at.b == j->bases) {
                best = at.b;
                *from = at;
            }
            continue;
        }
#endif
        if (kind == BV_J) {
            struct cursor after = at; /* copies, so that `at` and `st` can stay in registers */
            struct state next = st;
            u32 found = PASS(j, s, &after, &next, from);
            if (found)
                best = found;
            at = after;
            st = next;
            if (!fits(&st, j->limit))
                return best;
            continue;
        }
        if (kind == BV_P) {
            place_plain(&st, j, at.b);
            at.b++;
        } else if (kind == BV_M) {
            struct word w;
            u32 m = j->eruby[at.k];
            mono(&w, j, at.b, at.r[RIGHT], m);
            place_word(&st, j, &w);
            at.b++;
            at.r[RIGHT] += m;
        } else {
            struct word w;
            u32 n = j->ebase[at.k], m = j->eruby[at.k];
            group(&w, j, at.b, n, at.r[RIGHT], m);
            place_word(&st, j, &w);
            at.b += n;
            at.r[RIGHT] += m;
        }
        at.k++;
        if (!fits(&st, j->limit))
            return best;
        if (j->flag[at.b - 1] || at.b == j->bases) {
            best = at.b;
            *from = at;
        }
    }
    return best;
}

/* "Lines are filled from the first." */
static bv_answer fill_lines(const struct job *j, u32 *ends)
{
    struct cursor from = first_element;
    u32 s = 0, n = 0;
    while (s < j->bases) {
        u32 end = line_end(j, s, &from);
        if (end == 0)
            return answer(11, s);
        ends[n++] = end;
        s = end;
    }
    return answer(0, n);
}

/* ---- Writing ---- */

/* The starts of a string without space within it, the first at `at`. */
static void put_solid(const u32 *ws, u32 n, u32 at, u32 *out)
{
    u32 i;
    SHORT_LOOP
    for (i = 0; i < n; i++) {
        out[i] = at;
        at += 2 * ws[i];
    }
}

/* The same with `within` half units of space within the string. Where there is any, there are two characters or more. */
static void put_starts(const u32 *ws, u32 n, u32 at, u32 within, u32 *out)
{
    u32 share = 0, i;
    if (within == 0) {
        put_solid(ws, n, at, out);
        return;
    }
    SHORT_LOOP
    for (i = 0; i < n; i++) {
        out[i] = at + share / (n - 1);
        at += 2 * ws[i];
        share += within;
    }
}

/* The m characters from r of a side's reading in a word of n base characters at `at`; its runs begin with u. */
WITHIN static void put_reading(const struct job *j, const struct side *side, const struct string *x, u32 at, u32 n, u32 r, u32 m,
                               u32 u, u32 *out)
{
    if (x->by_runs) {
        u32 i;
        for (i = 0; i < n; i++) {
            u32 run = side->runs[u + i];
            put_solid(side->width + r, run, at + j->em - sum_of(side->width + r, run), out + r);
            r += run;
            at += 2 * j->em;
        }
    } else {
        put_starts(side->width + r, m, at + x->from, x->in, out + r);
    }
}

static void put_word(const struct job *j, const struct word *w, u32 at, u32 b, u32 n, u32 r, u32 m, u32 u,
                     const struct results *to)
{
    put_starts(j->width + b, n, at + w->front, w->inbase, to->base + b);
    put_reading(j, &j->side[RIGHT], &w->read[RIGHT], at, n, r, m, u, to->ruby[RIGHT]);
}

/* What the line from s up to e has of the J at a cursor. A J that e cuts is not passed: it goes on in the next line. */
static void write_jukugo(const struct job *j, u32 s, u32 e, struct cursor *at, struct state *st,
                         const struct results *to)
{
    const struct rest p = rest_of(j, s, at);
    const u32 n = smaller(p.n, e - p.b);
    struct word w;
    struct counts c = part_of(&w, j, &p, n);
    u32 origin = place_word(st, j, &w);
    put_word(j, &w, origin, p.b, n, p.r[RIGHT], c.m[RIGHT], p.u[RIGHT], to);
#if SIDES == 2
    if (w.left)
        put_reading(j, &j->side[LEFT], &w.read[LEFT], origin, n, p.r[LEFT], c.m[LEFT], p.u[LEFT], to->ruby[LEFT]);
#endif
    if (n == p.n)
        *at = behind(j, &p, &c);
}

#if SIDES == 2

/* A word with two readings, neither of them by runs. */
static void put_both(const struct job *j, const struct word *w, u32 at, const struct piece *p, const struct results *to)
{
    int side;
    put_starts(j->width + p->b, p->n, at + w->front, w->inbase, to->base + p->b);
    for (side = RIGHT; side < SIDES; side++)
        put_starts(j->side[side].width + p->r[side], p->m[side], at + w->read[side].from, w->read[side].in,
                   to->ruby[side] + p->r[side]);
}

/* As write_jukugo, of a J with a mono left reading. */
static void write_monos(const struct job *j, u32 s, u32 e, struct cursor *at, struct state *st, const struct results *to)
{
    const struct counts none = {{0, 0}};
    struct rest p = rest_of(j, s, at);
    while (p.n > 0 && p.b < e) {
        struct word w;
        struct piece own = mono_of(&w, j, &p);
        put_both(j, &w, place_word(st, j, &w), &own, to);
        step(j, &p);
    }
    if (p.n == 0)
        *at = behind(j, &p, &none);
}

#define WRITE(j, s, e, at, st, to) (j->lkind[(at)->k] == BV_LEFT_M ? write_monos : write_jukugo)(j, s, e, at, st, to)
#else
#define WRITE write_jukugo
#endif

/* The line from s up to e, which begins at the cursor; the cursor goes to where the next line begins. */
static void write_line(const struct job *j, u32 s, u32 e, struct cursor *from, const struct results *to)
{
    struct cursor at = *from;
    struct state st = line_start;
    while (at.b < e) {
        u32 kind = j->kind[at.k];
#if SIDES == 2
        if (is_with_left(j, &at, kind)) {
            struct word w;
            struct piece p = word_with_left(&w, j, &at);
            put_both(j, &w, place_word(&st, j, &w), &p, to);
            continue;
        }
#endif
        if (kind == BV_J) {
            struct cursor after = at;
            struct state next = st;
            WRITE(j, s, e, &after, &next, to);
            if (after.k == at.k)
                break;
            at = after;
            st = next;
            continue;
        }
        if (kind == BV_P) {
            to->base[at.b] = place_plain(&st, j, at.b);
            at.b++;
        } else if (kind == BV_M) {
            struct word w;
            u32 m = j->eruby[at.k], r = at.r[RIGHT], origin;
            mono(&w, j, at.b, r, m);
            origin = place_word(&st, j, &w);
            to->base[at.b] = origin + w.front;
            put_solid(j->side[RIGHT].width + r, m, origin + w.read[RIGHT].from, to->ruby[RIGHT] + r);
            at.b++;
            at.r[RIGHT] += m;
        } else {
            struct word w;
            u32 n = j->ebase[at.k], m = j->eruby[at.k];
            group(&w, j, at.b, n, at.r[RIGHT], m);
            put_word(j, &w, place_word(&st, j, &w), at.b, n, at.r[RIGHT], m, 0, to);
            at.b += n;
            at.r[RIGHT] += m;
        }
        at.k++;
    }
    *from = at;
}

static void write_lines(const struct job *j, const u32 *ends, u32 n, const struct results *to)
{
    struct cursor at = first_element;
    u32 s = 0, l;
    for (l = 0; l < n; l++) {
        write_line(j, s, ends[l], &at, to);
        to->lines[l] = ends[l];
        s = ends[l];
    }
}

/* A job whose characters have passed the door: its answer, and the result lists if it is accepted. */
static bv_answer set_elements(const struct job *j, const struct results *to)
{
    u32 ends[BV_MOST_BASE];
    bv_answer a = check_elements(j);
    if (a.number)
        return a;
    a = fill_lines(j, ends);
    if (a.number)
        return a;
    write_lines(j, ends, a.place, to);
    return a;
}
