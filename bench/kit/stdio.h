/* For the kit's clang, which brings no headers: what drive.c and second/lists.c use of the C library. */
#ifndef KIT_STDIO_H
#define KIT_STDIO_H
#include <stddef.h>
typedef struct kit_file FILE;
extern FILE *stdin, *stdout;
int printf(const char *form, ...);
size_t fread(void *to, size_t size, size_t count, FILE *from);
size_t fwrite(const void *from, size_t size, size_t count, FILE *to);
#endif
