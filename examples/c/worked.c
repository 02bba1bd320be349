/*
 * Sets the worked example of document 01 through bolyverit.h and prints it as the setting program does.
 *
 *     cc -Iinclude examples/c/worked.c target/staticlib/libexports.a -o worked
 */
#include <stdio.h>

#include "job.h"

/* Which ruby characters belong to each base character: rubies[b] up to rubies[b + 1]. In this job none is shared. */
static const uint32_t rubies[BASES + 1] = {0, 3, 3, 4, 6};

static uint32_t base[BASES], ruby[RUBIES], left[1], lines[BASES];
static const bv_places places = {BASES, RUBIES, 0, BASES, base, ruby, left, lines};

/* "The line's extent is the furthest end of any block or ruby in it." */
static uint32_t extent(uint32_t from, uint32_t upto)
{
    uint32_t most = 0, i;
    for (i = from; i < upto; i++)
        if (most < base[i] + 2 * width[i])
            most = base[i] + 2 * width[i];
    for (i = rubies[from]; i < rubies[upto]; i++)
        if (most < ruby[i] + 2 * rwidth[i])
            most = ruby[i] + 2 * rwidth[i];
    return most;
}

int main(void)
{
    uint32_t l, b, r, from = 0;
    bv_answer a = bv_set(&job, &places);
    if (a.number != BV_SET) {
        printf("refused %lu %lu\n", (unsigned long)a.number, (unsigned long)a.place);
        return 1;
    }
    printf("lines %lu\n", (unsigned long)a.place);
    for (l = 0; l < a.place; l++) {
        printf("line %lu\n", (unsigned long)extent(from, lines[l]));
        for (b = from; b < lines[l]; b++) {
            printf("b %lu %lu\n", (unsigned long)b, (unsigned long)base[b]);
            for (r = rubies[b]; r < rubies[b + 1]; r++)
                printf("r %lu %lu\n", (unsigned long)r, (unsigned long)ruby[r]);
        }
        from = lines[l];
    }
    return 0;
}
