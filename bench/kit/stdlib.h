/* For the kit's clang, which brings no headers: what drive.c uses of the C library. */
#ifndef KIT_STDLIB_H
#define KIT_STDLIB_H
unsigned long strtoul(const char *text, char **end, int radix);
#endif
