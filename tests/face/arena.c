/* Blocks where there is no heap: one behind the other, released in the opposite order; and the copies that the compiler may
 * call for. */
#include <stdint.h>

#include "platform.h"

/* 18 records, a recorder's memory, a recording that is checked, and a listing's buffer by entries and by words; a Cortex-M has no RAM
 * for the largest recording */
#ifdef __ARM_EABI__
enum { ARENA = 24576 };
#else
enum { ARENA = 196608 };
#endif
enum { ALIGN = 8 };

static _Alignas(ALIGN) unsigned char arena[ARENA];
static size_t used;

void *block(size_t bytes)
{
    void *p = arena + used;
    used += (bytes + ALIGN - 1) / ALIGN * ALIGN;
    if (used > ARENA)
        __builtin_trap();
    return p;
}

void release(void *p)
{
    used = (size_t)((unsigned char *)p - arena);
}

void *edge(size_t bytes)
{
    return block(bytes);
}

void edge_end(void *p)
{
    release(p);
}

#define COPIES __attribute__((no_builtin))

COPIES void *memcpy(void *to, const void *from, size_t bytes)
{
    for (size_t i = 0; i < bytes; i++)
        ((unsigned char *)to)[i] = ((const unsigned char *)from)[i];
    return to;
}

COPIES void *memset(void *to, int with, size_t bytes)
{
    for (size_t i = 0; i < bytes; i++)
        ((unsigned char *)to)[i] = (unsigned char)with;
    return to;
}

#ifdef __ARM_EABI__
void __aeabi_memcpy(void *to, const void *from, size_t bytes) { memcpy(to, from, bytes); }
void __aeabi_memcpy4(void *to, const void *from, size_t bytes) { memcpy(to, from, bytes); }
void __aeabi_memclr(void *to, size_t bytes) { memset(to, 0, bytes); }
void __aeabi_memclr4(void *to, size_t bytes) { memset(to, 0, bytes); }
void __aeabi_memset(void *to, size_t bytes, int with) { memset(to, with, bytes); }
#endif
