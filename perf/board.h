/* What perf/bare.c needs of the board that it runs on: a Cortex-M of the tests, or the 64-bit Arm board of the emulator. */
#ifndef BOARD_H
#define BOARD_H

#include <stddef.h>
#include <stdint.h>

#if defined __aarch64__

static inline long semihost(long call, const void *what)
{
    register long x0 __asm__("x0") = call;
    register const void *x1 __asm__("x1") = what;
    __asm__ volatile("hlt 0xf000" : "+r"(x0) : "r"(x1) : "memory");
    return x0;
}

static inline void board_say(const char *text, size_t length)
{
    static long output = -1;
    const struct {
        const char *name;
        uint64_t mode, length;
    } name = {":tt", 4, 3};
    if (output < 0)
        output = semihost(1, &name);
    const struct {
        long file;
        const char *text;
        uint64_t length;
    } what = {output, text, length};
    semihost(5, &what);
}

_Noreturn static inline void board_end(int good)
{
    const uint64_t what[2] = {good ? 0x20026 : 0x20023, 0};
    for (;;)
        semihost(0x18, what);
}

static inline void board_start(void) {}

static inline uint32_t board_ticks(void)
{
    uint64_t now;
    __asm__ volatile("isb\n\tmrs %0, cntvct_el0" : "=r"(now));
    return (uint32_t)now;
}

static inline void board_loop(uint32_t n)
{
    __asm__ volatile("1: subs %w0, %w0, #1\n\tb.ne 1b" : "+r"(n) : : "cc");
}

static inline void board_call_on(void *top, void (*act)(int))
{
    __asm__ volatile("mov x19, sp\n\tmov sp, %0\n\tmov w0, wzr\n\tblr %1\n\tmov sp, x19"
                     : : "r"(top), "r"(act)
                     : "x0", "x1", "x2", "x3", "x4", "x5", "x6", "x7", "x8", "x9", "x10", "x11", "x12", "x13", "x14", "x15", "x16", "x17", "x18", "x19", "x30",
                       "v0", "v1", "v2", "v3", "v4", "v5", "v6", "v7", "v16", "v17", "v18", "v19", "v20", "v21", "v22", "v23", "v24", "v25", "v26", "v27", "v28", "v29",
                       "v30", "v31", "cc", "memory");
}

int main(void);

/* The start: the registers for floats and vectors are let in, which the compiler copies by. */
__attribute__((naked, used)) void _start(void)
{
    __asm__("mov x0, #0x300000\n\tmsr cpacr_el1, x0\n\tisb\n\tldr x0, =0x48000000\n\tmov sp, x0\n\tbl main\n\tb end_good");
}

__attribute__((used)) void end_good(void)
{
    board_end(1);
}

#else

#include "semihosting.h"

static inline void board_say(const char *text, size_t length)
{
    static int output = -1;
    if (output < 0)
        output = semihost_open(SEMIHOST_OUTPUT);
    semihost_move(SEMIHOST_WRITE, output, text, length);
}

_Noreturn static inline void board_end(int good)
{
    semihost_exit(good);
}

/* SysTick, from its 24 bits down, by the processor's clock. */
static volatile uint32_t *const systick = (volatile uint32_t *)0xe000e010;

static inline void board_start(void)
{
    systick[1] = 0xffffff;
    systick[2] = 0;
    systick[0] = 5;
}

static inline uint32_t board_ticks(void)
{
    return 0xffffff - systick[2];
}

static inline void board_loop(uint32_t n)
{
    __asm__ volatile(".syntax unified\n1: subs %0, #1\n\tbne 1b" : "+l"(n) : : "cc");
}

static inline void board_call_on(void *top, void (*act)(int))
{
    __asm__ volatile("mov r4, sp\n\tmov sp, %0\n\tmovs r0, #0\n\tblx %1\n\tmov sp, r4"
                     : : "l"(top), "l"(act) : "r0", "r1", "r2", "r3", "r4", "r12", "lr", "cc", "memory");
}

#endif
#endif
