/* What the compiler calls for a copy or a fill in the archive for x86-64, so that the archive calls nothing: by the processor's own
 * string instructions. ports/build makes the names local to the archive. Nothing here is proved: tests/faces holds it.
 */
#include <stddef.h>
#include <stdint.h>

void *memcpy(void *to, const void *from, size_t bytes)
{
    void *t = to;
    __asm__ volatile("rep movsb" : "+D"(t), "+S"(from), "+c"(bytes) : : "memory");
    return to;
}

/* From the end where the later place is written, since the first bytes would be lost. */
void *memmove(void *to, const void *from, size_t bytes)
{
    if ((uintptr_t)to - (uintptr_t)from >= bytes)
        return memcpy(to, from, bytes);
    void *t = (uint8_t *)to + bytes - 1;
    const void *f = (const uint8_t *)from + bytes - 1;
    __asm__ volatile("std\n\trep movsb\n\tcld" : "+D"(t), "+S"(f), "+c"(bytes) : : "memory", "cc");
    return to;
}

void *memset(void *to, int with, size_t bytes)
{
    void *t = to;
    __asm__ volatile("rep stosb" : "+D"(t), "+c"(bytes) : "a"(with) : "memory");
    return to;
}
