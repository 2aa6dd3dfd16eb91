/* Semihosting on a Cortex-M: calls to the debugger, or to the emulator. On a board with neither, each is a fault. */
#ifndef SEMIHOSTING_H
#define SEMIHOSTING_H

#include <stddef.h>
#include <stdint.h>

enum { SEMIHOST_OPEN = 1, SEMIHOST_WRITE = 5, SEMIHOST_READ = 6, SEMIHOST_EXIT = 0x18 };
enum { SEMIHOST_INPUT = 0, SEMIHOST_OUTPUT = 4 };
enum { SEMIHOST_GOOD_END = 0x20026, SEMIHOST_BAD_END = 0x20023 };

static inline int semihost(int call, const void *what)
{
    register int r0 __asm__("r0") = call;
    register const void *r1 __asm__("r1") = what;
    __asm__ volatile("bkpt 0xab" : "+r"(r0) : "r"(r1) : "memory");
    return r0;
}

/* The standard input or output: both are the file ":tt", and the mode tells them apart. */
static inline int semihost_open(uint32_t mode)
{
    const struct {
        const char *name;
        uint32_t mode, length;
    } what = {":tt", mode, 3};
    return semihost(SEMIHOST_OPEN, &what);
}

/* Reads or writes; how many bytes were moved. The call itself gives how many were left over. */
static inline size_t semihost_move(int call, int file, const void *bytes, size_t count)
{
    const struct {
        int file;
        const void *bytes;
        uint32_t count;
    } what = {file, bytes, (uint32_t)count};
    return count - (size_t)semihost(call, &what);
}

_Noreturn static inline void semihost_exit(int good)
{
    semihost(SEMIHOST_EXIT, (const void *)(uintptr_t)(good ? SEMIHOST_GOOD_END : SEMIHOST_BAD_END));
    for (;;)
        ;
}

#endif
