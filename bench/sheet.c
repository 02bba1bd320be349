/*
 * The job sheet in plain C, in both forms: bv_set_sheet over bv_set_job. It lets the C engine of this folder be compared with
 * the second program, byte for byte, before it is measured. Sentences in quotation marks are document 01's, and R-6's of 02.
 */
#include "bolyverit.h"

#define LARGEST_SHEET 65535
#define MOST_RUNS 32768 /* more than 65,535 bytes can hold */

typedef uint32_t u32;

/* "The reader of a sheet holds the sheet's bytes and its own place in them." */
struct reader {
    const uint8_t *bytes;
    size_t length, at;
    u32 line; /* the line that is being read, from 1 */
};

/* What a sheet says. */
struct lists {
    int two; /* form two */
    u32 em, measure, ratio[6], profile; /* ruby a, m, c, then base a, m, c */
    u32 bases, rubies, lefts, elements, runs, lruns;
    u32 class_[BV_MOST_BASE], width[BV_MOST_BASE], before[BV_MOST_BASE], after[BV_MOST_BASE], flag[BV_MOST_BASE];
    u32 rclass[BV_MOST_RUBY], rwidth[BV_MOST_RUBY], lclass[BV_MOST_LEFT], lwidth[BV_MOST_LEFT];
    u32 kind[BV_MOST_ELEMENTS], ebase[BV_MOST_ELEMENTS], eruby[BV_MOST_ELEMENTS], lkind[BV_MOST_ELEMENTS];
    u32 eleft[BV_MOST_ELEMENTS];
    u32 run[MOST_RUNS], lrun[MOST_RUNS];
};

/* Whether the next byte is c, which is then passed. */
static int is_next(struct reader *r, uint8_t c)
{
    if (r->at < r->length && r->bytes[r->at] == c) {
        r->at++;
        return 1;
    }
    return 0;
}

static int is_word(struct reader *r, const char *word)
{
    for (; *word; word++)
        if (!is_next(r, (uint8_t)*word))
            return 0;
    return 1;
}

/* "decimal without leading zeros and at most 4,294,967,295" */
static int is_number(struct reader *r, u32 *number)
{
    uint64_t value = 0;
    size_t from = r->at;
    while (r->at < r->length && r->bytes[r->at] >= '0' && r->bytes[r->at] <= '9') {
        value = 10 * value + (u32)(r->bytes[r->at] - '0');
        if (value > 4294967295u)
            return 0;
        r->at++;
    }
    if (r->at == from || (r->bytes[from] == '0' && r->at > from + 1))
        return 0;
    *number = (u32)value;
    return 1;
}

/* A single space and a number. */
static int is_field(struct reader *r, u32 *number)
{
    return is_next(r, ' ') && is_number(r, number);
}

static int ends_line(struct reader *r)
{
    if (!is_next(r, '\n'))
        return 0;
    r->line++;
    return 1;
}

static bv_answer refused(u32 number, u32 place)
{
    bv_answer a;
    a.number = number;
    a.place = place;
    return a;
}

/* "Sections in a fixed order, each after its count"; "within a line form comes before count". */
static bv_answer read_count(struct reader *r, const char *word, u32 most, u32 place, u32 *count)
{
    u32 line = r->line;
    if (!is_word(r, word) || !is_field(r, count) || !ends_line(r))
        return refused(13, line);
    return *count > most ? refused(2, place) : refused(0, 0);
}

static int reads_base(struct reader *r, struct lists *s, u32 i)
{
    return is_number(r, &s->class_[i]) && is_field(r, &s->width[i]) && is_field(r, &s->before[i])
        && is_field(r, &s->after[i]) && is_field(r, &s->flag[i]) && ends_line(r);
}

/* Of the sections `ruby` and `left` alike. */
static int reads_ruby(struct reader *r, u32 *class_, u32 *width)
{
    return is_number(r, class_) && is_field(r, width) && ends_line(r);
}

/* So many numbers at the end of a list of runs. */
static int reads_runs(struct reader *r, u32 count, u32 *run, u32 *runs)
{
    for (; count; count--)
        if (!is_field(r, &run[(*runs)++]))
            return 0;
    return 1;
}

/* "a letter for the left kind (M, G, J; N for none) and its counts": one of a G, one for each base character of an M or a J. */
static int reads_left(struct reader *r, struct lists *s, u32 i)
{
    if (!is_next(r, ' ') || r->at == r->length)
        return 0;
    s->lkind[i] = r->bytes[r->at++];
    switch (s->lkind[i]) {
    case BV_LEFT_NONE:
        return 1;
    case BV_LEFT_G:
        return is_field(r, &s->eleft[i]);
    case BV_LEFT_M:
        if (s->kind[i] == BV_M)
            return is_field(r, &s->eleft[i]);
        /* fall through */
    case BV_LEFT_J:
        return reads_runs(r, s->kind[i] == BV_M ? 1 : s->ebase[i], s->lrun, &s->lruns);
    default:
        return 0;
    }
}

/* "`P`, `M r`, `G b r`, `J b` and b run lengths, b from 1 to 32" */
static int reads_right(struct reader *r, struct lists *s, u32 i)
{
    switch (s->kind[i]) {
    case BV_P:
        return 1;
    case BV_M:
        return is_field(r, &s->eruby[i]);
    case BV_G:
        return is_field(r, &s->ebase[i]) && is_field(r, &s->eruby[i]);
    case BV_J:
        return is_field(r, &s->ebase[i]) && s->ebase[i] - 1 <= 31 && reads_runs(r, s->ebase[i], s->run, &s->runs);
    default:
        return 0;
    }
}

/* In form two "each M, G and J line ends in a letter for the left kind". */
static int reads_element(struct reader *r, struct lists *s, u32 i)
{
    s->ebase[i] = s->eruby[i] = s->eleft[i] = 0;
    s->lkind[i] = BV_LEFT_NONE;
    if (r->at == r->length)
        return 0;
    s->kind[i] = r->bytes[r->at++];
    return reads_right(r, s, i) && (!s->two || s->kind[i] == BV_P || reads_left(r, s, i)) && ends_line(r);
}

/* "`set 2` with em and measure, one a line"; "`set 9` (form one's two numbers, the six ratio numbers, and one number for the
 * profile". Form one means 1:2:1 and profile 0. */
static int reads_set(struct reader *r, struct lists *s)
{
    u32 i;
    if (!is_word(r, "set ") || r->at == r->length)
        return 0;
    s->two = r->bytes[r->at] == '9';
    if (!is_next(r, s->two ? '9' : '2') || !ends_line(r))
        return 0;
    for (i = 0; i < 6; i++)
        s->ratio[i] = i % 3 == 1 ? 2 : 1;
    s->profile = 0;
    if (!is_number(r, &s->em) || !ends_line(r) || !is_number(r, &s->measure) || !ends_line(r))
        return 0;
    for (i = 0; s->two && i < 6; i++)
        if (!is_number(r, &s->ratio[i]) || !ends_line(r))
            return 0;
    return !s->two || (is_number(r, &s->profile) && ends_line(r));
}

/* "The sheet is read top to bottom and the first fault met .. is given". */
static bv_answer read_sheet(struct reader *r, struct lists *s)
{
    bv_answer a;
    u32 i;
    s->runs = s->lruns = s->lefts = 0;
    if (!reads_set(r, s))
        return refused(13, r->line);
    a = read_count(r, "base", BV_MOST_BASE, 0, &s->bases);
    if (a.number)
        return a;
    for (i = 0; i < s->bases; i++)
        if (!reads_base(r, s, i))
            return refused(13, r->line);
    a = read_count(r, "ruby", BV_MOST_RUBY, 1, &s->rubies);
    if (a.number)
        return a;
    for (i = 0; i < s->rubies; i++)
        if (!reads_ruby(r, &s->rclass[i], &s->rwidth[i]))
            return refused(13, r->line);
    if (s->two) {
        a = read_count(r, "left", BV_MOST_LEFT, 3, &s->lefts);
        if (a.number)
            return a;
        for (i = 0; i < s->lefts; i++)
            if (!reads_ruby(r, &s->lclass[i], &s->lwidth[i]))
                return refused(13, r->line);
    }
    a = read_count(r, "elem", BV_MOST_ELEMENTS, 2, &s->elements);
    if (a.number)
        return a;
    for (i = 0; i < s->elements; i++)
        if (!reads_element(r, s, i))
            return refused(13, r->line);
    return r->at < r->length ? refused(13, r->line) : refused(0, 0);
}

/* Text, written from the front of a buffer that is large enough. */
struct text {
    uint8_t *bytes;
    size_t length;
};

static void put_word(struct text *t, const char *word)
{
    for (; *word; word++)
        t->bytes[t->length++] = (uint8_t)*word;
}

static void put_number(struct text *t, u32 n)
{
    uint8_t digits[10];
    int i = 0;
    do {
        digits[i++] = (uint8_t)('0' + n % 10);
        n /= 10;
    } while (n);
    while (i)
        t->bytes[t->length++] = digits[--i];
}

static void put_row(struct text *t, const char *word, u32 a, u32 b)
{
    put_word(t, word);
    put_number(t, a);
    put_word(t, " ");
    put_number(t, b);
    put_word(t, "\n");
}

/* The part of an element in one line: base characters [b, c), ruby characters [r, q), left characters [l, m). */
struct span {
    u32 b, c, r, q, l, m;
};

/* Where the walk over the elements stands: in element k, `in` of its base characters already in earlier lines; at base character
 * b, ruby character r and its run u, left character l and its run v. */
struct walk {
    u32 k, in, b, r, u, l, v;
};

/* The next part, up to the line's end e at most. Only a J is ever cut. */
static struct span next_part(const struct lists *s, struct walk *at, u32 e)
{
    struct span p;
    u32 n = 1, i, by_runs;
    p.b = at->b;
    p.r = at->r;
    p.l = at->l;
    by_runs = s->kind[at->k] == BV_J && (s->lkind[at->k] == BV_LEFT_M || s->lkind[at->k] == BV_LEFT_J);
    if (s->kind[at->k] != BV_P && s->lkind[at->k] != BV_LEFT_NONE && !by_runs)
        at->l += s->eleft[at->k];
    switch (s->kind[at->k]) {
    case BV_P:
        break;
    case BV_M:
        at->r += s->eruby[at->k];
        break;
    case BV_G:
        n = s->ebase[at->k];
        at->r += s->eruby[at->k];
        break;
    default:
        n = s->ebase[at->k] - at->in;
        if (n > e - at->b)
            n = e - at->b;
        for (i = 0; i < n; i++) {
            at->r += s->run[at->u++];
            if (by_runs)
                at->l += s->lrun[at->v++];
        }
        at->in += n;
        if (at->in < s->ebase[at->k]) {
            p.c = at->b += n;
            p.q = at->r;
            p.m = at->l;
            return p; /* it goes on in the next line */
        }
        break;
    }
    at->k++;
    at->in = 0;
    p.c = at->b += n;
    p.q = at->r;
    p.m = at->l;
    return p;
}

/* "The line's extent is the furthest end of any block or ruby in it." */
static u32 further(u32 extent, const u32 *at, const u32 *width, u32 from, u32 upto)
{
    for (; from < upto; from++)
        if (extent < at[from] + 2 * width[from])
            extent = at[from] + 2 * width[from];
    return extent;
}

static u32 extent_of(const struct lists *s, const struct walk *from, const struct walk *upto, const bv_places *to)
{
    u32 extent = further(0, to->base, s->width, from->b, upto->b);
    extent = further(extent, to->ruby, s->rwidth, from->r, upto->r);
    return further(extent, to->left, s->lwidth, from->l, upto->l);
}

static void put_rows(struct text *t, const char *word, const u32 *at, u32 from, u32 upto)
{
    for (; from < upto; from++)
        put_row(t, word, from, at[from]);
}

static void put_result(struct text *t, const struct lists *s, u32 count, const bv_places *to)
{
    const u32 *lines = to->lines;
    struct walk at = {0, 0, 0, 0, 0, 0, 0};
    u32 l;
    put_word(t, "lines ");
    put_number(t, count);
    put_word(t, "\n");
    for (l = 0; l < count; l++) {
        struct walk ahead = at;
        while (ahead.b < lines[l])
            next_part(s, &ahead, lines[l]);
        put_word(t, "line ");
        put_number(t, extent_of(s, &at, &ahead, to));
        put_word(t, "\n");
        while (at.b < lines[l]) {
            struct span p = next_part(s, &at, lines[l]);
            put_rows(t, "b ", to->base, p.b, p.c);
            put_rows(t, "r ", to->ruby, p.r, p.q);
            put_rows(t, "l ", to->left, p.l, p.m);
        }
    }
}

static bv_answer set_lists(const struct lists *s, const bv_places *to)
{
    bv_job j;
    j.em = s->em;
    j.measure = s->measure;
    j.ruby_ratio = s->ratio;
    j.base_ratio = s->ratio + 3;
    j.profile = s->profile;
    j.bases = s->bases;
    j.class_ = s->class_;
    j.width = s->width;
    j.before = s->before;
    j.after = s->after;
    j.flag = s->flag;
    j.rubies = s->rubies;
    j.rclass = s->rclass;
    j.rwidth = s->rwidth;
    j.lefts = s->lefts;
    j.lclass = s->lclass;
    j.lwidth = s->lwidth;
    j.elements = s->elements;
    j.kind = s->kind;
    j.ebase = s->ebase;
    j.eruby = s->eruby;
    j.lkind = s->lkind;
    j.eleft = s->eleft;
    j.runs_length = s->runs;
    j.runs = s->run;
    j.lruns_length = s->lruns;
    j.lruns = s->lrun;
    return bv_set(&j, to);
}

size_t bv_set_sheet(const uint8_t *sheet, size_t length, uint8_t *out)
{
    static struct lists s;
    static u32 base[BV_MOST_BASE], ruby[BV_MOST_RUBY], left[BV_MOST_LEFT], lines[BV_MOST_BASE];
    static const bv_places places = {BV_MOST_BASE, BV_MOST_RUBY, BV_MOST_LEFT, BV_MOST_BASE, base, ruby, left, lines};
    struct reader r;
    struct text t;
    bv_answer a;
    r.bytes = sheet;
    r.length = length;
    r.at = 0;
    r.line = 1;
    t.bytes = out;
    t.length = 0;
    a = length > LARGEST_SHEET ? refused(13, 0) : read_sheet(&r, &s);
    if (a.number == 0)
        a = set_lists(&s, &places);
    if (a.number)
        put_row(&t, "refused ", a.number, a.place);
    else
        put_result(&t, &s, a.place, &places);
    return t.length;
}
