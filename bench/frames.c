/*
 * Answers job sheets through bv_set_sheet: one sheet on standard input, or with --framed many of them, each after a line
 * `sheet LENGTH`, each answered by a line `answer LENGTH` and the answer (second/README.md). It is linked with the C engine
 * and, where there is one, with the proved archive.
 */
#include <stdio.h>
#include <string.h>

#include "bolyverit.h"

#define LARGEST 65536 /* one byte more than a sheet may have: what is longer is refused without being read */

static uint8_t sheet[LARGEST];
static uint8_t out[BV_MOST_TEXT];

/* Reads `length` bytes, of which those past LARGEST are dropped; how many are kept, or -1 where some are missing. */
static long read_bytes(unsigned long length)
{
    unsigned long i;
    int c;
    for (i = 0; i < length; i++) {
        c = getchar();
        if (c == EOF)
            return -1;
        if (i < LARGEST)
            sheet[i] = (uint8_t)c;
    }
    return (long)(length < LARGEST ? length : LARGEST);
}

static int framed(void)
{
    unsigned long length;
    int fields;
    while ((fields = scanf("sheet %lu", &length)) == 1) {
        long kept;
        size_t size;
        if (getchar() != '\n' || (kept = read_bytes(length)) < 0)
            return 1;
        size = bv_set_sheet(sheet, (size_t)kept, out);
        printf("answer %lu\n", (unsigned long)size);
        fwrite(out, 1, size, stdout);
    }
    return fields == EOF ? 0 : 1;
}

int main(int count, char **words)
{
    if (count == 2 && strcmp(words[1], "--framed") == 0)
        return framed();
    if (count != 1) {
        fprintf(stderr, "usage: frames [--framed]\n");
        return 2;
    }
    fwrite(out, 1, bv_set_sheet(sheet, fread(sheet, 1, LARGEST, stdin), out), stdout);
    return 0;
}
