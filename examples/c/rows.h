/*
 * Prints the rows of an account as the account program does (docs/MANUAL.md, "The account").
 */
#include <stdio.h>

#include "bolyverit.h"

/* The rule, what of the element touches what, and whether another element and a depth belong to it. */
static const struct reason {
    const char *said;
    int other, depth;
} reasons[] = {
    {"", 0, 0},
    {"rule 4 block touches start", 0, 0},
    {"rule 1 block touches block of", 1, 0},
    {"rule 2 block touches ruby of", 1, 1},
    {"rule 2 ruby touches block of", 1, 1},
    {"rule 3 ruby touches ruby of", 1, 0},
    {"rule 4 ruby touches start", 0, 0},
    {"rule 2 block touches left ruby of", 1, 1},
    {"rule 2 left ruby touches block of", 1, 1},
    {"rule 3 left ruby touches left ruby of", 1, 0},
    {"rule 4 left ruby touches start", 0, 0}
};

static void print_row(const uint32_t *r)
{
    const struct reason *why = &reasons[r[BV_ROW_REASON]];
    printf("element %lu at %lu gap %lu %s", (unsigned long)r[BV_ROW_ELEMENT], (unsigned long)r[BV_ROW_START],
           (unsigned long)r[BV_ROW_GAP], why->said);
    if (why->other)
        printf(" %lu", (unsigned long)r[BV_ROW_OTHER]);
    if (why->depth)
        printf(" at depth %lu", (unsigned long)r[BV_ROW_DEPTH]);
    printf("\n");
}

/* Of each line its extent and its rows. */
static void print_rows(uint32_t count, const uint32_t *rows, const uint32_t *told, const uint32_t *extents)
{
    uint32_t l, q = 0;
    for (l = 0; l < count; l++) {
        printf("line %lu\n", (unsigned long)extents[l]);
        for (; q < told[l]; q++)
            print_row(rows + BV_ROW * q);
    }
}
