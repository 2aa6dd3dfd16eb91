/* What drive.c needs of where it runs: on_host.c has it by the C library, the other on_*.c without one. */
#ifndef PLATFORM_H
#define PLATFORM_H

#include <stddef.h>

/* Up to `room` bytes of the script; 0 at its end. */
size_t take(char *to, size_t room);

/* Bytes of the answers. */
void give(const char *from, size_t count);

/* A block of just that many bytes, aligned for numbers of 4 bytes, and its end; the last one begun ends first. */
void *block(size_t bytes);
void release(void *p);

/* A block of just that many bytes, at any address, with nothing behind it that can be read, where the platform can see to that; and
 * its end. There is one at a time. */
void *edge(size_t bytes);
void edge_end(void *p);

#endif
