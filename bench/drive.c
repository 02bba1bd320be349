/*
 * Makes one of the measured jobs and sets it a number of times through bv_set_job, whichever engine is linked.
 *
 *     drive MIX ELEMENTS REPEATS   sets the job; prints its counts, its lines and a sum over the results
 *     drive MIX ELEMENTS call      writes the job as a call in lists (second/README.md, "Jobs in lists")
 *
 * With ACCOUNT defined it asks for the job's account each time instead, by bv_account_job; the sum is then over its lists.
 *
 * The jobs are made from a fixed sequence of numbers, so they are the same everywhere, and a smaller job of a mix is the
 * beginning of a larger one. README.md says what the mixes are.
 */
#include <stdio.h>
#include <stdlib.h>
#include <string.h>

#include "bolyverit.h"

typedef uint32_t u32;

#define EM 10u
#define ANY 0u /* a mix whose words are M, G and J */

/*
 * A mix: of 8 elements `words` are of `kind` and the rest are P. Words have 1 base character, or, where `wide` is 3, 1 to 3; where it is 32, all have 32
 * with 2 ruby characters each. The ratios are those of spread ruby and of spread base. With profile 1 a P is a kana where it would else be an ideograph.
 * Where the kind is ANY, half of the words have a left reading.
 */
struct mix {
    const char *name;
    u32 kind, words, wide, measure;
    const u32 *ruby_ratio, *base_ratio;
    u32 profile;
};

static const u32 usual[3] = {1, 2, 1}, shoulder[3] = {0, 0, 1}, inner[3] = {1, 3, 1};

/* Each measure gives lines of 20 to 25 elements, but for the long words, which it cuts. */
static const struct mix mixes[] = {
    {"plain", BV_P, 0, 1, 230, usual, usual, 0},
    {"mono", BV_M, 6, 1, 270, usual, usual, 0},
    {"older", BV_M, 6, 1, 270, usual, usual, 1},
    {"group", BV_G, 6, 3, 440, usual, usual, 0},
    {"house", BV_G, 6, 3, 440, shoulder, inner, 0},
    {"jukugo", BV_J, 6, 3, 440, usual, usual, 0},
    {"group-of-one", BV_G, 6, 1, 270, usual, usual, 0},
    {"jukugo-of-one", BV_J, 6, 1, 270, usual, usual, 0},
    {"glosses", ANY, 6, 3, 400, usual, usual, 0},
    {"long-30", BV_J, 8, 32, 30, usual, usual, 0},
    {"long-200", BV_J, 8, 32, 200, usual, usual, 0},
    {"long-4000", BV_J, 8, 32, 4000, usual, usual, 0}
};

static u32 class_[BV_MOST_BASE], width[BV_MOST_BASE], before[BV_MOST_BASE], after[BV_MOST_BASE], flag[BV_MOST_BASE];
static u32 rclass[BV_MOST_RUBY], rwidth[BV_MOST_RUBY];
static u32 lclass[BV_MOST_LEFT], lwidth[BV_MOST_LEFT];
static u32 kind[BV_MOST_ELEMENTS], ebase[BV_MOST_ELEMENTS], eruby[BV_MOST_ELEMENTS];
static u32 lkind[BV_MOST_ELEMENTS], eleft[BV_MOST_ELEMENTS];
static u32 run[BV_MOST_BASE], lrun[BV_MOST_BASE];

/* The job, its counts as far as it is made. */
static bv_job job = {
    EM, 0, usual, usual, 0,
    0, class_, width, before, after, flag,
    0, rclass, rwidth,
    0, lclass, lwidth,
    0, kind, ebase, eruby, lkind, eleft,
    0, run,
    0, lrun
};

#ifdef ACCOUNT
static u32 rows[BV_ROW * BV_MOST_BASE], told[BV_MOST_BASE], extents[BV_MOST_BASE];
static const bv_reasons reasons = {BV_ROW * BV_MOST_BASE, BV_MOST_BASE, BV_MOST_BASE, rows, told, extents};
#else
static u32 base[BV_MOST_BASE], ruby[BV_MOST_RUBY], left[BV_MOST_LEFT], lines[BV_MOST_BASE];
static const bv_places places = {BV_MOST_BASE, BV_MOST_RUBY, BV_MOST_LEFT, BV_MOST_BASE, base, ruby, left, lines};
#endif

/* The next of the sequence, below n. */
static u32 chosen(u32 n)
{
    static u32 seed = 20200424;
    seed = 1664525 * seed + 1013904223;
    return (seed >> 16) % n;
}

static void add_base(u32 c, u32 w, u32 front, u32 back)
{
    class_[job.bases] = c;
    width[job.bases] = w;
    before[job.bases] = front;
    after[job.bases] = back;
    flag[job.bases] = chosen(8) != 0;
    job.bases++;
}

static void add_rubies(u32 c, u32 n)
{
    u32 i;
    for (i = 0; i < n; i++) {
        rclass[job.rubies] = c;
        rwidth[job.rubies] = 4 + chosen(2);
        job.rubies++;
    }
}

static void add_lefts(u32 c, u32 n)
{
    u32 i;
    for (i = 0; i < n; i++) {
        lclass[job.lefts] = c;
        lwidth[job.lefts] = 3 + chosen(2);
        job.lefts++;
    }
}

static void add_element(u32 letter, u32 n, u32 m)
{
    kind[job.elements] = letter;
    ebase[job.elements] = n;
    eruby[job.elements] = m;
    lkind[job.elements] = BV_LEFT_NONE;
    eleft[job.elements] = 0;
    job.elements++;
}

/* A P: of 4 one is punctuation, as JLReq sets it, or a space. */
static void add_plain(void)
{
    add_element(BV_P, 0, 0);
    if (chosen(4) != 0) {
        add_base(chosen(2) ? 15 : job.profile == 1 ? 16 : 19, EM, 0, 0);
        return;
    }
    switch (chosen(6)) {
    case 0:
        add_base(1, EM, EM / 2, 0);
        break;
    case 1:
        add_base(2, EM, 0, EM / 2);
        break;
    case 2:
        add_base(5, EM, EM / 4, EM / 4);
        break;
    case 3:
        add_base(6, EM, 0, EM / 2);
        break;
    case 4:
        add_base(7, EM / 2, 0, 0); /* a comma whose blank is squeezed away */
        break;
    default:
        add_base(14, EM, 0, 0);
        break;
    }
}

/* A left reading for the last element, 1 to 4 characters for each of its n base characters: letters, or kana over Western base. */
static void add_gloss(u32 letter, u32 n, int western)
{
    const u32 of_jukugo[3] = {BV_LEFT_M, BV_LEFT_J, BV_LEFT_G};
    const u32 own = letter == BV_J ? of_jukugo[chosen(3)] : letter, from = (u32)job.lefts;
    u32 i;
    for (i = 0; i < n; i++) {
        u32 count = 1 + chosen(4);
        add_lefts(western ? 15 : 27, count);
        if (letter == BV_J && own != BV_LEFT_G)
            lrun[job.lruns_length++] = count;
    }
    lkind[job.elements - 1] = own;
    eleft[job.elements - 1] = (u32)job.lefts - from;
}

/* A word with ruby. Of 8 groups one has Western base and one Western ruby. */
static void add_word(const struct mix *mix)
{
    const u32 any[3] = {BV_M, BV_G, BV_J};
    u32 letter = mix->kind == ANY ? any[chosen(3)] : mix->kind;
    u32 script = letter == BV_G ? chosen(8) : 7;
    u32 n = letter == BV_M ? 1 : mix->wide == 3 ? 1 + chosen(3) : mix->wide, m = 0, i;
    for (i = 0; i < n; i++) {
        u32 own = mix->wide == 32 ? 2 : mix->wide == 3 ? 1 + chosen(3) : 1 + chosen(4);
        add_base(script == 0 ? 27 : 19, EM, 0, 0);
        add_rubies(script == 1 ? 27 : 15, own);
        if (letter == BV_J)
            run[job.runs_length++] = own;
        m += own;
    }
    add_element(letter, n, m);
    if (mix->kind == ANY && chosen(2) == 0)
        add_gloss(letter, n, script == 0);
}

/* 1 where the job would pass a limit. */
static int make_job(const struct mix *mix, u32 count)
{
    const u32 most = mix->wide == 32 ? 64 : 9, of_gloss = 12; /* characters of one reading */
    job.measure = mix->measure;
    job.ruby_ratio = mix->ruby_ratio;
    job.base_ratio = mix->base_ratio;
    job.profile = mix->profile;
    while (job.elements < count) {
        if (job.elements == BV_MOST_ELEMENTS || job.bases + mix->wide > BV_MOST_BASE)
            return 1;
        if (job.rubies + most > BV_MOST_RUBY || job.lefts + of_gloss > BV_MOST_LEFT)
            return 1;
        if (chosen(8) < mix->words)
            add_word(mix);
        else
            add_plain();
    }
    return 0;
}

static void put_words(const u32 *list, size_t n)
{
    fwrite(list, sizeof list[0], n, stdout);
}

/* A call of bv_set_job: what is asked, the lengths, and the memory; each list has a word before it, and one is behind the last. */
static void print_call(void)
{
    static const u32 room[BV_MOST_RUBY];
    const u32 *lists[22];
    size_t lengths[22], i, l = 0;
    u32 head[4], length;
#define ADD(list, n) (lists[l] = (list), lengths[l++] = (n))
    ADD(job.ruby_ratio, 3);
    ADD(job.base_ratio, 3);
    ADD(class_, job.bases);
    ADD(width, job.bases);
    ADD(before, job.bases);
    ADD(after, job.bases);
    ADD(flag, job.bases);
    ADD(rclass, job.rubies);
    ADD(rwidth, job.rubies);
    ADD(lclass, job.lefts);
    ADD(lwidth, job.lefts);
    ADD(kind, job.elements);
    ADD(ebase, job.elements);
    ADD(eruby, job.elements);
    ADD(lkind, job.elements);
    ADD(eleft, job.elements);
    ADD(run, job.runs_length);
    ADD(lrun, job.lruns_length);
    ADD(room, job.bases);
    ADD(room, job.rubies);
    ADD(room, job.lefts);
    ADD(room, job.bases);
#undef ADD
    head[0] = 0;
    head[1] = job.em;
    head[2] = job.measure;
    head[3] = job.profile;
    put_words(head, 4);
    for (i = 2; i < l; i++) {
        length = (u32)lengths[i];
        put_words(&length, 1);
    }
    for (i = 0; i < l; i++) {
        put_words(room, 1);
        put_words(lists[i], lengths[i]);
    }
    put_words(room, 1);
}

static u32 sum_over(u32 sum, const u32 *list, size_t n)
{
    size_t i;
    for (i = 0; i < n; i++)
        sum = 31 * sum + list[i];
    return sum;
}

#ifdef ACCOUNT
static bv_answer asked(void)
{
    return bv_account(&job, &reasons);
}

static u32 sum_of(bv_answer a)
{
    u32 pieces = a.place > 0 ? told[a.place - 1] : 0;
    return sum_over(sum_over(sum_over(a.number, rows, BV_ROW * pieces), told, a.place), extents, a.place);
}
#else
static bv_answer asked(void)
{
    return bv_set(&job, &places);
}

static u32 sum_of(bv_answer a)
{
    return sum_over(sum_over(sum_over(sum_over(a.number, base, job.bases), ruby, job.rubies), left, job.lefts), lines, a.place);
}
#endif

int main(int count, char **words)
{
    const size_t known = sizeof mixes / sizeof mixes[0];
    bv_answer a = {0, 0};
    size_t m = 0;
    unsigned long repeats;
    while (count == 4 && m < known && strcmp(words[1], mixes[m].name) != 0)
        m++;
    if (count != 4 || m == known || make_job(&mixes[m], (u32)strtoul(words[2], 0, 10))) {
        printf("usage: drive MIX ELEMENTS REPEATS|call, within the limits of a job\n");
        return 2;
    }
    if (strcmp(words[3], "call") == 0) {
        print_call();
        return 0;
    }
    for (repeats = strtoul(words[3], 0, 10); repeats > 0; repeats--)
        a = asked();
    printf("elements %u base %u ruby %u answer %u lines %u sum %u left %u\n", (u32)job.elements, (u32)job.bases,
           (u32)job.rubies, a.number, a.place, sum_of(a), (u32)job.lefts);
    return a.number != 0;
}
