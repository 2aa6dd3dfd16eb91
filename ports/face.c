/* The acts of include/adomvik.h on a processor that rt does not compile for. The proved module has them as rt wrote it for
 * x86-64: lengths of 64 bits, the readings as two words of 64 bits, a recorder as one, what a check tells as one of which the upper
 * three bytes say nothing, and a result of 8 bits, a listing's of 32.
 * This file gives them the header's own signatures by the target's calling convention; clang links the module in and inlines it.
 * Nothing here is proved: tests/ports holds it on every target.
 */
#include "adomvik.h"

uint8_t proved_open(adomvik_board *row, uint64_t boards, const uint32_t *counts, uint64_t count);
uint8_t proved_open_plans(adomvik_board *row, uint64_t boards, const adomvik_plan *plans, uint64_t count);
uint8_t proved_sample(adomvik_board *row, uint64_t boards, uint32_t board, uint64_t first, uint64_t second, const uint32_t *cells, uint64_t count, adomvik_sampled *out);
uint8_t proved_sample_board(adomvik_board *board, uint64_t first, uint64_t second, const uint32_t *cells, uint64_t count, adomvik_sampled *out);
uint8_t proved_frame(adomvik_board *row, uint64_t boards, const uint8_t *frame, uint64_t length, uint8_t *reply, uint64_t room);
uint8_t proved_read(const adomvik_board *row, uint64_t boards, adomvik_reading *out);
uint8_t proved_up(const adomvik_board *row, uint64_t boards, adomvik_line *out);
uint32_t proved_list(const adomvik_board *row, uint64_t boards, uint32_t board, uint32_t *words, uint64_t many);
uint64_t proved_begin(uint8_t *memory, uint64_t length, const adomvik_plan *plans, uint64_t count);
uint64_t proved_note_sample(uint64_t recorder, uint8_t *memory, uint64_t length, uint32_t board, uint64_t first, uint64_t second, const uint32_t *cells, uint64_t count, uint8_t number, uint8_t status, uint16_t bled);
uint64_t proved_note_frame(uint64_t recorder, uint8_t *memory, uint64_t length, const uint8_t *frame, uint64_t bytes, const uint8_t *reply, uint64_t room, uint8_t number);
uint64_t proved_note_reading(uint64_t recorder, uint8_t *memory, uint64_t length, uint8_t number, uint8_t line, uint8_t chg, uint8_t dsg, uint8_t board, uint8_t cell);
uint64_t proved_note_other(uint64_t recorder);
uint64_t proved_check_row(adomvik_board *row, uint64_t boards, const uint8_t *recording, uint64_t length);

/* Two fields of the readings that lie side by side, the lower one first. */
static inline uint64_t word(uint32_t low, uint32_t high)
{
    return (uint64_t)high << 32 | low;
}

/* A recorder as one word, its first field lowest, and back. */
static inline uint64_t packed(adomvik_recorder r)
{
    return word(r.used, (uint32_t)r.verdict << 24 | (uint32_t)r.stopped << 16 | r.acts);
}

static inline adomvik_recorder unpacked(uint64_t r)
{
    return (adomvik_recorder){(uint32_t)r, (uint16_t)(r >> 32), (uint8_t)(r >> 48), (uint8_t)(r >> 56)};
}

uint8_t adomvik_open(adomvik_board *row, size_t boards, const uint32_t *counts, size_t count)
{
    return proved_open(row, boards, counts, count);
}

uint8_t adomvik_open_plans(adomvik_board *row, size_t boards, const adomvik_plan *plans, size_t count)
{
    return proved_open_plans(row, boards, plans, count);
}

uint8_t adomvik_sample(adomvik_board *row, size_t boards, uint32_t board, adomvik_readings x, const uint32_t *cells, size_t count, adomvik_sampled *out)
{
    return proved_sample(row, boards, board, word(x.elapsed, (uint32_t)x.shunt), word(x.thermistor, x.load), cells, count, out);
}

uint8_t adomvik_sample_board(adomvik_board *board, adomvik_readings x, const uint32_t *cells, size_t count, adomvik_sampled *out)
{
    return proved_sample_board(board, word(x.elapsed, (uint32_t)x.shunt), word(x.thermistor, x.load), cells, count, out);
}

uint8_t adomvik_frame(adomvik_board *row, size_t boards, const uint8_t *frame, size_t length, uint8_t *reply, size_t room)
{
    return proved_frame(row, boards, frame, length, reply, room);
}

uint8_t adomvik_read(const adomvik_board *row, size_t boards, adomvik_reading *out)
{
    return proved_read(row, boards, out);
}

uint8_t adomvik_up(const adomvik_board *row, size_t boards, adomvik_line *out)
{
    return proved_up(row, boards, out);
}

uint32_t adomvik_list(const adomvik_board *row, size_t boards, uint32_t board, uint32_t *words, size_t many)
{
    return proved_list(row, boards, board, words, many);
}

adomvik_recorder adomvik_begin(uint8_t *memory, size_t length, const adomvik_plan *plans, size_t count)
{
    return unpacked(proved_begin(memory, length, plans, count));
}

adomvik_recorder adomvik_note_sample(adomvik_recorder r, uint8_t *memory, size_t length, uint32_t board, adomvik_readings x, const uint32_t *cells, size_t count, uint8_t number, uint8_t status, uint16_t bled)
{
    return unpacked(proved_note_sample(packed(r), memory, length, board, word(x.elapsed, (uint32_t)x.shunt), word(x.thermistor, x.load), cells, count, number, status, bled));
}

adomvik_recorder adomvik_note_frame(adomvik_recorder r, uint8_t *memory, size_t length, const uint8_t *frame, size_t bytes, const uint8_t *reply, size_t room, uint8_t number)
{
    return unpacked(proved_note_frame(packed(r), memory, length, frame, bytes, reply, room, number));
}

adomvik_recorder adomvik_note_reading(adomvik_recorder r, uint8_t *memory, size_t length, uint8_t number, uint8_t line, uint8_t chg, uint8_t dsg, uint8_t board, uint8_t cell)
{
    return unpacked(proved_note_reading(packed(r), memory, length, number, line, chg, dsg, board, cell));
}

adomvik_recorder adomvik_note_other(adomvik_recorder r)
{
    return unpacked(proved_note_other(packed(r)));
}

adomvik_checked adomvik_check_row(adomvik_board *row, size_t boards, const uint8_t *recording, size_t length)
{
    const uint64_t told = proved_check_row(row, boards, recording, length);
    return (adomvik_checked){(uint32_t)told, (uint8_t)(told >> 32)};
}

/* ---- what the compiler may call for a copy, a fill or a product, each target's under its own names, so that the archive calls nothing */

#ifndef __wasm__ /* it has instructions for both */
#define COPIES __attribute__((used, no_builtin)) static
typedef uint32_t __attribute__((may_alias)) quad;

/* By four bytes as far as they go, where both places lie at four: records, journals and cells do. */
static inline void copy(void *to, const void *from, size_t bytes)
{
    uint8_t *t = to;
    const uint8_t *f = from;
    size_t i = 0;
    if (((uintptr_t)t | (uintptr_t)f) % sizeof(quad) == 0)
        for (; i < bytes - bytes % sizeof(quad); i += sizeof(quad))
            *(quad *)(t + i) = *(const quad *)(f + i);
    for (; i < bytes; i++)
        t[i] = f[i];
}

/* The same between places that may overlap: from the end where the later one is put. */
static inline void move(void *to, const void *from, size_t bytes)
{
    uint8_t *t = to;
    const uint8_t *f = from;
    if ((uintptr_t)t - (uintptr_t)f >= bytes) {
        copy(to, from, bytes);
        return;
    }
    size_t i = bytes;
    if (((uintptr_t)t | (uintptr_t)f) % sizeof(quad) == 0) {
        for (; i % sizeof(quad) != 0; i--)
            t[i - 1] = f[i - 1];
        for (; i > 0; i -= sizeof(quad))
            *(quad *)(t + i - sizeof(quad)) = *(const quad *)(f + i - sizeof(quad));
    }
    for (; i > 0; i--)
        t[i - 1] = f[i - 1];
}

static inline void fill(void *to, uint8_t with, size_t bytes)
{
    uint8_t *t = to;
    size_t i = 0;
    if ((uintptr_t)t % sizeof(quad) == 0)
        for (; i < bytes - bytes % sizeof(quad); i += sizeof(quad))
            *(quad *)(t + i) = with * 0x01010101u;
    for (; i < bytes; i++)
        t[i] = with;
}

#ifdef __ARM_EABI__
COPIES void __aeabi_memcpy(void *to, const void *from, size_t bytes)
{
    copy(to, from, bytes);
}

/* these with a 4 or an 8: where the places are known to lie at so many bytes */
COPIES void __aeabi_memcpy4(void *to, const void *from, size_t bytes)
{
    copy(to, from, bytes);
}

COPIES void __aeabi_memmove(void *to, const void *from, size_t bytes)
{
    move(to, from, bytes);
}

COPIES void __aeabi_memmove4(void *to, const void *from, size_t bytes)
{
    move(to, from, bytes);
}

COPIES void __aeabi_memclr(void *to, size_t bytes)
{
    fill(to, 0, bytes);
}

COPIES void __aeabi_memclr4(void *to, size_t bytes)
{
    fill(to, 0, bytes);
}

COPIES void __aeabi_memclr8(void *to, size_t bytes)
{
    fill(to, 0, bytes);
}

#if __ARM_ARCH_ISA_THUMB == 1
/* A product of 64 bits, which a Cortex-M0 has no instructions for: a listing's length in words is one, three times a small number. */
COPIES uint64_t __aeabi_lmul(uint64_t a, uint64_t b)
{
    uint64_t product = 0;
    for (; b != 0; a <<= 1, b >>= 1)
        if (b & 1)
            product += a;
    return product;
}
#endif
#else
COPIES void *memcpy(void *to, const void *from, size_t bytes)
{
    copy(to, from, bytes);
    return to;
}

COPIES void *memmove(void *to, const void *from, size_t bytes)
{
    move(to, from, bytes);
    return to;
}

COPIES void *memset(void *to, int with, size_t bytes)
{
    fill(to, (uint8_t)with, bytes);
    return to;
}
#endif
#endif
