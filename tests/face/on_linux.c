/* The driver on Linux without a C library: its start, and read, write and exit by the kernel's own calls. */
#include <stdint.h>

#include "platform.h"

int main(void);

enum { READ = 63, WRITE = 64, EXIT = 93 };

static long kernel(long call, long a, long b, long c)
{
#if defined __aarch64__
    register long x8 __asm__("x8") = call, x0 __asm__("x0") = a, x1 __asm__("x1") = b, x2 __asm__("x2") = c;
    __asm__ volatile("svc 0" : "+r"(x0) : "r"(x8), "r"(x1), "r"(x2) : "memory");
    return x0;
#elif defined __riscv
    register long a7 __asm__("a7") = call, a0 __asm__("a0") = a, a1 __asm__("a1") = b, a2 __asm__("a2") = c;
    __asm__ volatile("ecall" : "+r"(a0) : "r"(a7), "r"(a1), "r"(a2) : "memory");
    return a0;
#endif
}

size_t take(char *to, size_t room)
{
    const long n = kernel(READ, 0, (long)(uintptr_t)to, (long)room);
    return n > 0 ? (size_t)n : 0;
}

void give(const char *from, size_t count)
{
    while (count > 0) {
        const long n = kernel(WRITE, 1, (long)(uintptr_t)from, (long)count);
        if (n <= 0)
            kernel(EXIT, 3, 0, 0);
        from += n;
        count -= (size_t)n;
    }
}

void _start(void)
{
    kernel(EXIT, main(), 0, 0);
    for (;;)
        ;
}
