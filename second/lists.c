/*
 * Answers calls on jobs in lists by bv_set_job and bv_account_job, whichever engine is linked: many in one run, from standard
 * input to standard output (README.md, "Jobs in lists"). With SETTING_ONLY it asks for no account, for an engine that has none.
 */
#include <stdio.h>

#include "bolyverit.h"

#define LISTS 20 /* sixteen that are read, four that are written; the account writes three */
#define FIRST 4  /* the function, em, measure and profile */
#define HEAD (FIRST + LISTS)
#define MOST 262144 /* words of one call */

static uint32_t memory[MOST];

/* A list and its length. */
#define LIST(i) list[i], head[FIRST + (i)]

/* Em and measure, the ratios, the profile and the lists of the job; the lists that each function writes. */
#define JOB                                                                                                                \
    head[1], head[2], ratio[0], ratio[1], head[3], LIST(0), LIST(1), LIST(2), LIST(3), LIST(4), LIST(5), LIST(6), LIST(7), \
        LIST(8), LIST(9), LIST(10), LIST(11), LIST(12), LIST(13), LIST(14), LIST(15)
#define POSITIONS LIST(16), LIST(17), LIST(18), LIST(19)
#define TELLING LIST(16), LIST(17), LIST(18)

static bv_answer called(const uint32_t *head, uint32_t *const *ratio, uint32_t *const *list)
{
#ifndef SETTING_ONLY
    if (head[0] == 1)
        return bv_account_job(JOB, TELLING);
#endif
    return bv_set_job(JOB, POSITIONS);
}

/* Where the ratios and the lists stand in the memory, with a word before each and one behind the last; how many words that are. */
static size_t place_lists(const uint32_t *head, uint32_t **ratio, uint32_t **list)
{
    size_t used = 0;
    int i;
    for (i = 0; i < 2; i++, used += 3)
        ratio[i] = memory + ++used;
    for (i = 0; i < LISTS; i++) {
        if (head[FIRST + i] > MOST || used + head[FIRST + i] > MOST - 2)
            return 0;
        list[i] = memory + ++used;
        used += head[FIRST + i];
    }
    return used + 1;
}

int main(void)
{
    uint32_t head[HEAD], *ratio[2], *list[LISTS], answer[2];
    size_t found, used;
    bv_answer a;
    while ((found = fread(head, sizeof head[0], HEAD, stdin)) == HEAD) {
        used = place_lists(head, ratio, list);
        if (used == 0 || fread(memory, sizeof memory[0], used, stdin) != used)
            return 1;
        a = called(head, ratio, list);
        answer[0] = a.number;
        answer[1] = a.place;
        if (fwrite(answer, sizeof answer[0], 2, stdout) != 2 || fwrite(memory, sizeof memory[0], used, stdout) != used)
            return 1;
    }
    return found == 0 ? 0 : 1;
}
