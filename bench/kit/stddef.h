/* For the kit's clang, which brings no headers. */
#ifndef KIT_STDDEF_H
#define KIT_STDDEF_H
typedef __SIZE_TYPE__ size_t;
#endif
