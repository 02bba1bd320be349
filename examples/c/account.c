/*
 * The account of the worked example of document 01 through bolyverit.h, printed as the account program does.
 *
 *     cc -Iinclude examples/c/account.c target/staticlib/libexports.a -o account
 */
#include <stdio.h>

#include "job.h"
#include "rows.h"

static uint32_t rows[BV_ROW * BASES], told[BASES], extents[BASES];
static const bv_reasons lists = {BV_ROW * BASES, BASES, BASES, rows, told, extents};

int main(void)
{
    uint32_t e, readings = 0;
    bv_answer a = bv_account(&job, &lists);
    if (a.number != BV_SET) {
        printf("refused %lu %lu\n", (unsigned long)a.number, (unsigned long)a.place);
        return 1;
    }
    for (e = 0; e < ELEMENTS; e++)
        readings += kind[e] != BV_P;
    printf("clear lines %lu elements %d readings %lu\n", (unsigned long)a.place, ELEMENTS, (unsigned long)readings);
    print_rows(a.place, rows, told, extents);
    return 0;
}
