/* The driver on a desk: standard input and output, and blocks of the heap of just their size, so that valgrind sees one byte
 * too many. The library itself is compiled by rt, and no sanitizer looks into it: that it reads past a recording's end is seen by
 * every build here, since the recording then lies in front of a page that cannot be read. */
#define _DEFAULT_SOURCE
#include <stdio.h>
#include <stdlib.h>
#include <sys/mman.h>

#include "platform.h"

size_t take(char *to, size_t room)
{
    return fread(to, 1, room, stdin);
}

void give(const char *from, size_t count)
{
    fwrite(from, 1, count, stdout);
}

void *block(size_t bytes)
{
    void *p = malloc(bytes ? bytes : 1);
    if (!p)
        exit(2);
    return p;
}

void release(void *p)
{
    free(p);
}

/* What can be read in front of the page, and the page, larger than any is. */
enum { READABLE = 1 << 20, GUARD_PAGE = 1 << 16 };

void *edge(size_t bytes)
{
    static char *mapped;
    if (!mapped) {
        mapped = mmap(NULL, READABLE + GUARD_PAGE, PROT_READ | PROT_WRITE, MAP_PRIVATE | MAP_ANONYMOUS, -1, 0);
        if (mapped == MAP_FAILED || mprotect(mapped + READABLE, GUARD_PAGE, PROT_NONE))
            exit(2);
    }
    if (bytes > READABLE)
        exit(2);
    return mapped + READABLE - bytes;
}

void edge_end(void *p)
{
    (void)p; /* the mapping stays for the next one */
}
