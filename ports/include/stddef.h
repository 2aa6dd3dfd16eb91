/* What include/adomvik.h asks of this header, by the compiler alone: most targets here have no C library. */
#ifndef PORTS_STDDEF_H
#define PORTS_STDDEF_H
typedef __SIZE_TYPE__ size_t;
#define offsetof(type, field) __builtin_offsetof(type, field)
#endif
