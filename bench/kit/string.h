/* For the kit's clang, which brings no headers: what drive.c uses of the C library. */
#ifndef KIT_STRING_H
#define KIT_STRING_H
int strcmp(const char *a, const char *b);
#endif
