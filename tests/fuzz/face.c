/* The C face under a fuzzer: garbage records, counts, plans, lengths, frames and buffers for the entries of include/adomvik.h.
 *
 * An input is a row of records, made by an opening or of its own bytes, and then one act after another on it. Each act is made
 * twice, on memory that lies elsewhere, and must come to the same. What is lent lies in a block of just its size, so that the
 * sanitizer sees a byte too far. No rule of the paper stands here but what the header says of every act: which numbers an
 * entry may return, which rows are refused, that a refused act has changed nothing, that a sample and a frame change one
 * record, which of its fields, and the ranges of what they answer; of a journal, what is entered where, and what a listing of any
 * record gives; of the fault line, that it is the reading's, and how many boards were looked at for it; of a recorder of any fields,
 * its verdict on any act, the bytes that it puts, and that no other byte of its memory moves; of a check of any bytes, what it tells
 * and which records it leaves how: the bytes are read here once more, and the acts are made again by their own entries. What a
 * recorder made of a day is right.
 */
#include <stdlib.h>
#include <string.h>

#include "adomvik.h"

enum { RECORDS = 18, LONGEST = 40, PATTERN = 0xa5, RUN_MOST = 10000000, COUNT_MOST = 255, TALLY_MOST = 65535 };

/* The registers of the tallies: low bytes, then high bytes. */
enum { TALLIES = 5, TALLY_LOW = 16, TALLY_HIGH = 24 };

/* A byte of the journal has the cause in its upper half, a fault by the place of its bit, and the cell in its lower. */
enum { JOURNAL = ADOMVIK_JOURNAL_MAX, HALF = 16, CAUSE_OV = 2, CAUSE_UV = 3 };

/* What register 1 and a clear are about: the faults that a host board keeps, and those that forbid a switch. */
enum { KEPT = ADOMVIK_SCD | ADOMVIK_OCD | ADOMVIK_OV | ADOMVIK_UV, FAULTS = KEPT | ADOMVIK_HOT, CONTROL_MOST = 7 };

/* What an entry may return, a bit for each number. */
enum { OPENS = 1 << 0 | 1 << 1, READS = OPENS, SAMPLES = 0x3f, SAMPLES_ONE = 0x3b, FRAMES = 0x2fc7 };

#define HOLDS(condition) do { if (!(condition)) __builtin_trap(); } while (0)

/* ---- the input, byte by byte; zeros behind its end */

static const uint8_t *at, *end;

static uint8_t byte(void)
{
    return at < end ? *at++ : 0;
}

static uint32_t word(void)
{
    uint32_t low = byte();
    low |= (uint32_t)byte() << 8;
    low |= (uint32_t)byte() << 16;
    return low | (uint32_t)byte() << 24;
}

/* A number near one that matters, or any. */
static uint32_t number(void)
{
    static const uint32_t marks[] = {0, 5, 10, 16, 975, 1400, 2000, 2200, 2800, 2900, 3200, 3300, 4000, 4050, 4150, 4175, 4200, 4250, 4275, 5000,
                                     10000, 60000, 100000, 500000, 0x7fffffff, 0x80000000, 0xffffffff};
    const uint8_t how = byte(), count = sizeof marks / sizeof *marks;
    if (how >= 224)
        return word();
    if (how >= 192)
        return (uint32_t)byte() << 8 | how;
    return marks[how % count] + (uint32_t)(how / count % 4) - 1;
}

/* ---- what is lent */

static void *lent(size_t bytes)
{
    uint8_t *block = malloc(bytes ? bytes : 1);
    HOLDS(block);
    return block;
}

static void *copy_of(const void *from, size_t bytes)
{
    void *block = lent(bytes);
    memcpy(block, from, bytes);
    return block;
}

static void *blank(size_t bytes)
{
    void *block = lent(bytes);
    memset(block, PATTERN, bytes);
    return block;
}

static int is_blank(const void *block, size_t bytes)
{
    for (size_t i = 0; i < bytes; i++)
        if (((const uint8_t *)block)[i] != PATTERN)
            return 0;
    return 1;
}

/* ---- records */

static adomvik_board *row, *before, *other;
static size_t boards;

static int same(const adomvik_board *a, const adomvik_board *b)
{
    return memcmp(a, b, sizeof *a) == 0;
}

static int same_journal(const adomvik_journal *a, const adomvik_journal *b)
{
    return memcmp(a->numbers, b->numbers, sizeof a->numbers) == 0 && memcmp(a->whats, b->whats, sizeof a->whats) == 0
        && a->next == b->next && a->len == b->len;
}

/* What a board keeps of its past: tallies, the number of samples and the journal, without the padding behind it. */
static int same_past(const adomvik_board *a, const adomvik_board *b)
{
    return memcmp(&a->tallies, &b->tallies, sizeof a->tallies) == 0 && a->samples == b->samples && same_journal(&a->journal, &b->journal);
}

/* All but the padding, which lies in front of the tallies and at the end. */
static int alike(const adomvik_board *a, const adomvik_board *b)
{
    return memcmp(a, b, offsetof(adomvik_board, garden) + sizeof a->garden) == 0 && same_past(a, b);
}

/* A record that a board can have: of a kind, with its cells, and on a garden board with a row and a trigger. */
static int good_board(const adomvik_board *b)
{
    if (b->kind == ADOMVIK_GARDEN)
        return b->count >= ADOMVIK_GARDEN_CELLS_MIN && b->count <= ADOMVIK_GARDEN_CELLS_MAX
            && b->garden.row <= ADOMVIK_BQ7791504 && b->garden.trigger >= ADOMVIK_TRIGGER_MIN;
    return b->kind <= ADOMVIK_HOST && b->count >= ADOMVIK_CELLS_MIN && b->count <= ADOMVIK_CELLS_MAX;
}

/* Refusal 1 is given exactly where this fails. */
static int good_row(void)
{
    for (size_t i = 0; i < boards; i++)
        if (!good_board(&before[i]))
            return 0;
    return boards >= 1 && boards <= ADOMVIK_BOARDS_MAX;
}

static int row_stays(void)
{
    return memcmp(row, before, boards * sizeof *row) == 0;
}

/* The one record that differs, none where none does; two may not. */
static const adomvik_board *changed(void)
{
    const adomvik_board *found = 0;
    for (size_t i = 0; i < boards; i++)
        if (!same(&row[i], &before[i])) {
            HOLDS(!found);
            found = &row[i];
        }
    return found;
}

static void look_again(void)
{
    memcpy(before, row, boards * sizeof *row);
    memcpy(other, row, boards * sizeof *row);
}

/* The same act on the copy came to the same row. */
static void both_alike(void)
{
    for (size_t i = 0; i < boards; i++)
        HOLDS(alike(&row[i], &other[i]));
}

/* The last sample is kept. */
static void kept_last(const adomvik_last *last, int32_t shunt, const uint32_t *cells, unsigned count)
{
    unsigned met = 0;
    for (unsigned i = 0; i < count; i++) {
        HOLDS(last->low <= cells[i] && cells[i] <= last->high);
        met |= (last->low == cells[i]) | (last->high == cells[i]) << 1;
    }
    HOLDS(met == 3 && last->shunt == shunt);
}

/* A host board keeps its four faults. Its switches go by their bits too, which only a fault that latches takes away. */
static void sampled_host(const adomvik_board *now, const adomvik_board *was, const adomvik_sampled *told)
{
    const unsigned latching = now->latches & ~was->latches & FAULTS;
    HOLDS((was->latches & KEPT & ~now->latches) == 0);
    HOLDS(!(told->status & ADOMVIK_DSG_ON) || now->control & ADOMVIK_CONTROL_DSG);
    HOLDS(!(told->status & ADOMVIK_CHG_ON) || now->control & ADOMVIK_CONTROL_CHG);
    HOLDS((now->control & ~was->control) == 0 && ((now->control ^ was->control) & ADOMVIK_CONTROL_CLEAR) == 0);
    HOLDS(latching ? now->control <= CONTROL_MOST : now->control == was->control);
    HOLDS(!(latching & ~ADOMVIK_OV) || !(now->control & ADOMVIK_CONTROL_DSG));
    HOLDS(!(latching & ~ADOMVIK_UV) || !(now->control & ADOMVIK_CONTROL_CHG));
}

/* A stand-alone or a host board: flags, bled cells and runs. */
static void sampled_runs(const adomvik_board *now, const adomvik_board *was, const adomvik_sampled *told)
{
    const unsigned cells = (1u << now->count) - 1;
    if (now->kind == ADOMVIK_HOST)
        sampled_host(now, was, told);
    else
        HOLDS(now->control == was->control);
    HOLDS(memcmp(&now->garden, &was->garden, sizeof now->garden) == 0);
    HOLDS((now->flags & ~cells) == 0 && (told->bled & ~now->flags) == 0);
    HOLDS((told->bled & (told->bled << 1 | told->bled << 2)) == 0);
    HOLDS((now->flags & ~(told->bled | told->bled >> 1 | told->bled >> 2)) == 0);
    HOLDS(now->currents.ocd <= RUN_MOST && now->currents.scd <= RUN_MOST);
    for (unsigned i = 0; i < now->count; i++)
        HOLDS(now->cells[i].ov <= RUN_MOST && now->cells[i].uv <= RUN_MOST);
}

/* A count goes by one, or to its cap, or is zero. */
static int counted(uint32_t now, uint32_t was)
{
    return now == 0 || now == was - 1 || now == (was < COUNT_MOST ? was + 1 : COUNT_MOST);
}

/* One fault of a garden board: a recovery count only while it is latched, counts of cells only while it is not. */
static void sampled_fault(int latched, uint8_t back, uint8_t trigger, uint32_t count)
{
    HOLDS(latched ? back < trigger && count == 0 : back == 0 && count < trigger);
}

/* A garden board: two latches and what is kept of them, its counts, the last sample, and nothing else. */
static void sampled_garden(const adomvik_board *now, const adomvik_board *was, const adomvik_sampled *told)
{
    const int ov = (now->latches & ADOMVIK_OV) != 0, uv = (now->latches & ADOMVIK_UV) != 0;
    adomvik_board kept = *was;
    kept.latches = now->latches;
    kept.last = now->last;
    kept.garden.ov_back = now->garden.ov_back;
    kept.garden.uv_back = now->garden.uv_back;
    kept.tallies = now->tallies;
    kept.samples = now->samples;
    kept.journal = now->journal;
    memcpy(kept.cells, now->cells, now->count * sizeof *now->cells);
    HOLDS(alike(&kept, now));
    HOLDS(told->bled == 0 && told->status == (ov ? ADOMVIK_OV : ADOMVIK_CHG_ON) + (uv ? ADOMVIK_UV : ADOMVIK_DSG_ON));
    for (unsigned i = 0; i < now->count; i++) {
        HOLDS(counted(now->cells[i].ov, was->cells[i].ov) && counted(now->cells[i].uv, was->cells[i].uv));
        sampled_fault(ov, now->garden.ov_back, now->garden.trigger, now->cells[i].ov);
        sampled_fault(uv, now->garden.uv_back, now->garden.trigger, now->cells[i].uv);
    }
}

/* A tally goes up where its fault latches, and stops. */
static uint16_t tallied(uint16_t was, unsigned latching)
{
    return (uint16_t)(was + (latching && was < TALLY_MOST));
}

static void sampled_tallies(const adomvik_board *now, const adomvik_board *was)
{
    const unsigned latching = now->latches & ~was->latches;
    HOLDS(now->tallies.scd == tallied(was->tallies.scd, latching & ADOMVIK_SCD));
    HOLDS(now->tallies.ocd == tallied(was->tallies.ocd, latching & ADOMVIK_OCD));
    HOLDS(now->tallies.ov == tallied(was->tallies.ov, latching & ADOMVIK_OV));
    HOLDS(now->tallies.uv == tallied(was->tallies.uv, latching & ADOMVIK_UV));
    HOLDS(now->tallies.hot == tallied(was->tallies.hot, latching & ADOMVIK_HOT));
}

/* A run, or a garden board's count, of the cell at a place. */
static uint32_t run_of(const adomvik_board *board, unsigned cell, unsigned cause)
{
    return cause == CAUSE_OV ? board->cells[cell].ov : board->cells[cell].uv;
}

/* The cell of an entry: none but for OV and UV. All cells have one delay, so no lower one has a run as long; counts went back to
 * zero, but one that was over the trigger before would have reached it, up or down. */
static void entered_cell(const adomvik_board *now, const adomvik_board *was, unsigned cause, unsigned cell)
{
    if (cause != CAUSE_OV && cause != CAUSE_UV) {
        HOLDS(cell == 0);
        return;
    }
    HOLDS(cell >= 1 && cell <= now->count);
    const uint32_t run = run_of(now, cell - 1, cause), count = run_of(was, cell - 1, cause), trigger = now->garden.trigger;
    HOLDS(now->kind == ADOMVIK_GARDEN ? count >= trigger - 1 : run > 0);
    HOLDS(now->kind == ADOMVIK_GARDEN || cause == CAUSE_UV || now->flags >> (cell - 1) & 1);
    for (unsigned i = 0; i + 1 < cell; i++)
        HOLDS(now->kind == ADOMVIK_GARDEN ? run_of(was, i, cause) <= trigger : run_of(now, i, cause) < run);
}

/* An entry for each fault that latches, in the order of their bits, at the number of this sample; no other place has moved. */
static void sampled_journal(const adomvik_board *now, const adomvik_board *was)
{
    const unsigned latching = now->latches & ~was->latches;
    adomvik_journal kept = was->journal;
    HOLDS(now->samples == was->samples + (was->samples < UINT32_MAX));
    for (unsigned cause = 0; cause < TALLIES; cause++) {
        if (!(latching >> cause & 1))
            continue;
        const unsigned place = kept.next % JOURNAL, cell = now->journal.whats[place] % HALF;
        entered_cell(now, was, cause, cell);
        kept.numbers[place] = now->samples;
        kept.whats[place] = (uint8_t)(HALF * cause + cell);
        kept.next = (uint8_t)((place + 1) % JOURNAL);
        kept.len = (uint8_t)(kept.len < JOURNAL ? kept.len + 1 : JOURNAL);
    }
    HOLDS(same_journal(&now->journal, &kept));
}

/* What an accepted sample leaves of a record. */
static void sampled(const adomvik_board *now, const adomvik_board *was, const adomvik_sampled *told, int32_t shunt, const uint32_t *cells)
{
    HOLDS(now->count == was->count && now->cycles == was->cycles && now->kind == was->kind);
    HOLDS(memcmp(&now->working, &was->working, 2 * sizeof now->working) == 0);
    HOLDS(now->latches == (told->status & 31) && (told->status & 32) == 0);
    kept_last(&now->last, shunt, cells, now->count);
    sampled_tallies(now, was);
    sampled_journal(now, was);
    if (now->kind == ADOMVIK_GARDEN)
        sampled_garden(now, was, told);
    else
        sampled_runs(now, was, told);
}

/* ---- the acts */

/* The board that a plan is of, as it starts. */
static adomvik_board started(adomvik_plan plan)
{
    adomvik_board fresh;
    memset(&fresh, 0, sizeof fresh);
    fresh.count = (uint8_t)plan.number;
    fresh.kind = (uint8_t)(plan.number >> 8);
    fresh.garden.row = (uint8_t)(plan.number >> 16);
    fresh.garden.trigger = (uint8_t)(plan.number >> 24);
    fresh.latches = fresh.kind == ADOMVIK_GARDEN ? ADOMVIK_OV : 0;
    fresh.last.high = UINT32_MAX;
    fresh.last.shunt = INT32_MAX;
    return fresh;
}

/* What an opening by these plans came to: each board as it starts, or refusal 1. */
static void opened(uint8_t result, uint8_t again, const adomvik_plan *plans, size_t count)
{
    int good = count == boards && boards >= 1 && boards <= ADOMVIK_BOARDS_MAX;
    for (size_t i = 0; i < count; i++) {
        const adomvik_board wanted = started(plans[i]);
        good &= good_board(&wanted);
        HOLDS(result != 0 || alike(&row[i], &wanted));
    }
    HOLDS(again == result && OPENS >> result & 1 && (result == 0) == good);
    both_alike();
    HOLDS(result == 0 || row_stays());
}

/* A number from the lowest up that can be asked for, mostly; else one that is it in its low byte alone, or any. */
static uint32_t asked(uint32_t lowest, uint32_t count)
{
    const uint8_t how = byte();
    const uint32_t good = lowest + how % count;
    if (how < 224)
        return good;
    return how < 240 ? 256u * byte() + good : number();
}

static uint32_t cells_asked(void)
{
    return asked(ADOMVIK_CELLS_MIN, ADOMVIK_CELLS_MAX - ADOMVIK_CELLS_MIN + 1);
}

static void open_row(void)
{
    uint32_t counts[LONGEST];
    adomvik_plan plans[LONGEST];
    const size_t count = byte() % 4 ? boards : byte() % LONGEST;
    for (size_t i = 0; i < count; i++) {
        counts[i] = cells_asked();
        plans[i] = adomvik_stand_alone(counts[i]);
    }
    uint32_t *list = copy_of(counts, count * sizeof *list);
    const uint8_t result = adomvik_open(row, boards, list, count);
    opened(result, adomvik_open(other, boards, list, count), plans, count);
    free(list);
}

static adomvik_plan garden_plan(void)
{
    const uint32_t cells = asked(ADOMVIK_GARDEN_CELLS_MIN, ADOMVIK_GARDEN_CELLS_MAX - ADOMVIK_GARDEN_CELLS_MIN + 1);
    const uint32_t row = asked(ADOMVIK_BQ7791500, ADOMVIK_BQ7791504 + 1), trigger = asked(ADOMVIK_TRIGGER_MIN, ADOMVIK_TRIGGER_MAX);
    return adomvik_garden(cells, row, trigger);
}

/* A plan, mostly by its functions; else of any kind, row and trigger, as no caller should make it. */
static adomvik_plan plan(void)
{
    const uint8_t how = byte();
    adomvik_plan made;
    switch (how % 3) {
    case ADOMVIK_STAND_ALONE: made = adomvik_stand_alone(cells_asked()); break;
    case ADOMVIK_HOST: made = adomvik_host(cells_asked()); break;
    default: made = garden_plan();
    }
    if (how >= 240)
        made.number += 256u * word();
    return made;
}

static void open_plans(void)
{
    adomvik_plan plans[LONGEST];
    const size_t count = byte() % 4 ? boards : byte() % LONGEST;
    for (size_t i = 0; i < count; i++)
        plans[i] = plan();
    adomvik_plan *list = copy_of(plans, count * sizeof *list);
    const uint8_t result = adomvik_open_plans(row, boards, list, count);
    opened(result, adomvik_open_plans(other, boards, list, count), plans, count);
    free(list);
}

static adomvik_readings readings(void)
{
    adomvik_readings x;
    x.elapsed = byte() % 8 ? 1 + word() % 100000 : number();
    x.shunt = (int32_t)number();
    if (byte() & 1)
        x.shunt = (int32_t)(0 - (uint32_t)x.shunt);
    x.thermistor = byte() % 8 ? 900u + byte() : number();
    x.load = byte() % 8 ? byte() & 1 : number();
    return x;
}

static size_t cells_for(uint32_t *cells, uint8_t wanted)
{
    const size_t count = byte() % 8 ? wanted % LONGEST : byte() % LONGEST;
    for (size_t i = 0; i < count; i++)
        cells[i] = number();
    return count;
}

static void sample_row(void)
{
    uint32_t cells[LONGEST];
    const uint32_t board = byte() % 8 ? byte() % 17 : number();
    const adomvik_readings x = readings();
    const size_t count = cells_for(cells, board >= 1 && board <= boards ? row[board - 1].count : 5);
    uint32_t *list = copy_of(cells, count * sizeof *list);
    adomvik_sampled *told = blank(sizeof *told), *again = blank(sizeof *again);
    const uint8_t result = adomvik_sample(row, boards, board, x, list, count, told);
    HOLDS(adomvik_sample(other, boards, board, x, list, count, again) == result && SAMPLES >> result & 1);
    HOLDS((result == ADOMVIK_BAD_ROW) == !good_row());
    both_alike();
    if (result) {
        HOLDS(row_stays() && is_blank(told, sizeof *told));
    } else {
        const adomvik_board *moved = changed();
        HOLDS(board >= 1 && board <= boards && (!moved || moved == &row[board - 1]));
        sampled(&row[board - 1], &before[board - 1], told, x.shunt, cells);
        HOLDS(told->status == again->status && told->bled == again->bled);
        /* the entry for one record, which looks at no row, does the same */
        adomvik_board *one = copy_of(&before[board - 1], sizeof *one);
        HOLDS(adomvik_sample_board(one, x, list, count, again) == 0 && alike(one, &row[board - 1]));
        HOLDS(told->status == again->status && told->bled == again->bled);
        free(one);
    }
    free(again);
    free(told);
    free(list);
}

static void sample_one(void)
{
    uint32_t cells[LONGEST];
    if (boards == 0)
        return;
    const size_t place = byte() % boards;
    const adomvik_readings x = readings();
    const size_t count = cells_for(cells, row[place].count);
    uint32_t *list = copy_of(cells, count * sizeof *list);
    adomvik_sampled *told = blank(sizeof *told);
    const uint8_t result = adomvik_sample_board(&row[place], x, list, count, told);
    HOLDS(SAMPLES_ONE >> result & 1);
    HOLDS((result == ADOMVIK_BAD_ROW) == !good_board(&before[place]));
    if (result) {
        HOLDS(row_stays() && is_blank(told, sizeof *told));
    } else {
        const adomvik_board *moved = changed();
        HOLDS(!moved || moved == &row[place]);
        sampled(&row[place], &before[place], told, x.shunt, cells);
    }
    free(told);
    free(list);
}

/* The remainder of the bytes by x^8 + x^2 + x + 1, bit by bit. */
static uint8_t check(const uint8_t *bytes, size_t count)
{
    unsigned rest = 0;
    for (size_t i = 0; i < count; i++) {
        rest ^= bytes[i];
        for (int k = 0; k < 8; k++)
            rest = (rest << 1 ^ (rest & 0x80 ? 0x107 : 0)) & 0xff;
    }
    return (uint8_t)rest;
}

/* The byte of a tally that a register reads; -1 where it is another register. */
static int tally_byte(const adomvik_tallies *tallies, uint8_t reg)
{
    const uint16_t all[TALLIES] = {tallies->scd, tallies->ocd, tallies->ov, tallies->uv, tallies->hot};
    if (reg >= TALLY_HIGH && reg < TALLY_HIGH + TALLIES)
        return all[reg - TALLY_HIGH] / 256;
    return reg >= TALLY_LOW && reg < TALLY_LOW + TALLIES ? all[reg - TALLY_LOW] % 256 : -1;
}

/* What an accepted frame leaves of a record: tallies and journal, latches and register 1 but for a write to that register, and all
 * of a garden board. */
static void framed(const adomvik_board *now, const adomvik_board *was, const uint8_t *frame, const uint8_t *reply)
{
    const int tally = tally_byte(&was->tallies, frame[1]);
    HOLDS(same_past(now, was));
    if (tally >= 0 || was->kind == ADOMVIK_GARDEN) {
        HOLDS(alike(now, was) && frame[0] % 2 == 0 && (tally >= 0 ? reply[2] == tally : frame[1] == 0));
        return;
    }
    HOLDS(now->count == was->count && now->kind == was->kind && now->flags == was->flags);
    HOLDS(memcmp(&now->last, &was->last, sizeof now->last) == 0 && memcmp(&now->garden, &was->garden, sizeof now->garden) == 0);
    if (frame[1] == 1)
        HOLDS(now->kind == ADOMVIK_HOST && reply[2] == now->control);
    if (frame[1] != 1 || frame[0] % 2 == 0) {
        HOLDS(now->latches == was->latches && now->control == was->control);
        return;
    }
    HOLDS(now->control == frame[2] && now->control <= CONTROL_MOST && now->cycles == was->cycles);
    HOLDS(memcmp(&now->working, &was->working, 2 * sizeof now->working) == 0);
    if (was->control & ~now->control & ADOMVIK_CONTROL_CLEAR)
        HOLDS((now->latches & ~(was->latches & FAULTS)) == 0 && ((now->latches ^ was->latches) & ADOMVIK_HOT) == 0);
    else
        HOLDS(now->latches == was->latches);
}

static void frame(void)
{
    uint8_t bytes[LONGEST];
    const uint8_t how = byte();
    const size_t length = how & 7 ? 4 : byte() % LONGEST, room = how >> 3 & 7 ? 4 + (how >> 6) : byte() % LONGEST;
    for (size_t i = 0; i < length; i++)
        bytes[i] = byte();
    if (length == 4 && byte() % 8) {
        if (byte() % 2)
            bytes[1] %= 32; /* where the registers are */
        if (boards && byte() % 8)
            bytes[0] = (uint8_t)(2 + bytes[0] % (2 * boards));
        bytes[3] = check(bytes, 3);
    }
    uint8_t *sent = copy_of(bytes, length), *reply = blank(room), *again = blank(room);
    const uint8_t result = adomvik_frame(row, boards, sent, length, reply, room);
    HOLDS(adomvik_frame(other, boards, sent, length, again, room) == result && FRAMES >> result & 1);
    HOLDS((result == ADOMVIK_BAD_ROW) == !good_row());
    both_alike();
    HOLDS(memcmp(reply, again, room) == 0 && memcmp(sent, bytes, length) == 0);
    if (result) {
        HOLDS(row_stays() && is_blank(reply, room));
    } else {
        const adomvik_board *moved = changed();
        HOLDS(!moved || moved == &row[bytes[0] / 2 - 1]);
        HOLDS(reply[0] == bytes[0] && reply[1] == bytes[1] && reply[3] == check(reply, 3) && is_blank(reply + 4, room - 4));
        framed(&row[bytes[0] / 2 - 1], &before[bytes[0] / 2 - 1], bytes, reply);
    }
    free(again);
    free(reply);
    free(sent);
}

static void reading(void)
{
    adomvik_reading *told = blank(sizeof *told);
    const uint8_t result = adomvik_read(row, boards, told);
    HOLDS(READS >> result & 1 && (result == ADOMVIK_BAD_ROW) == !good_row() && row_stays());
    if (result)
        HOLDS(is_blank(told, sizeof *told));
    else
        HOLDS(told->line <= 1 && told->chg <= 1 && told->dsg <= 1 && told->board <= boards && told->cell <= 16 && !told->board == !told->cell);
    free(told);
}

/* How many boards a search for a latch looks at. */
static size_t looked_at(void)
{
    for (size_t i = 0; i < boards; i++)
        if (before[i].latches & FAULTS)
            return i + 1;
    return boards;
}

static void fault_line(void)
{
    adomvik_line *told = blank(sizeof *told), *again = blank(sizeof *again);
    adomvik_reading *whole = blank(sizeof *whole);
    const uint8_t result = adomvik_up(row, boards, told);
    HOLDS(adomvik_up(other, boards, again) == result && adomvik_read(row, boards, whole) == result);
    HOLDS(READS >> result & 1 && (result == ADOMVIK_BAD_ROW) == !good_row() && row_stays());
    HOLDS(told->line == again->line && told->looked == again->looked && told->line == whole->line);
    if (result)
        HOLDS(is_blank(told, sizeof *told));
    else
        HOLDS(told->looked == looked_at() && told->line == ((before[told->looked - 1].latches & FAULTS) != 0));
    free(whole);
    free(again);
    free(told);
}

/* The entry so many places behind the oldest of a journal whose place counts by its remainder. */
static adomvik_latching entry(const adomvik_journal *journal, size_t held, size_t at)
{
    const size_t place = (journal->next + JOURNAL - held + at) % JOURNAL;
    const adomvik_latching found = {journal->whats[place] / HALF, journal->whats[place] % HALF, journal->numbers[place]};
    return found;
}

static size_t held_by(const adomvik_board *board)
{
    return board->journal.len < JOURNAL ? board->journal.len : JOURNAL;
}

/* What a listing with that room has to return. */
static uint32_t listed(uint32_t board, size_t room)
{
    if (!good_row())
        return 256 + ADOMVIK_BAD_ROW;
    if (board < 1 || board > boards)
        return 256 + ADOMVIK_NO_BOARD;
    const size_t held = held_by(&before[board - 1]);
    return room < held ? 256 + ADOMVIK_LIST_ROOM : (uint32_t)held;
}

/* The same by entries, in a block of its own. */
static void listing_by_entries(uint32_t board, size_t room, uint32_t wanted, const uint32_t *words)
{
    adomvik_latching *entries = blank(room * sizeof *entries);
    size_t count = LONGEST;
    const uint8_t result = adomvik_listing(row, boards, board, entries, room, &count);
    HOLDS(result == (wanted < 256 ? 0 : wanted - 256) && count == (wanted < 256 ? wanted : LONGEST));
    HOLDS(memcmp(entries, words, room * sizeof *entries) == 0);
    free(entries);
}

static void listing(void)
{
    const uint32_t board = byte() % 8 ? byte() % 17 : number();
    const uint8_t how = byte();
    const size_t held = board >= 1 && board <= boards ? held_by(&row[board - 1]) : 0;
    /* all of it but one, all of it, one or two more than that, or any */
    const size_t room = how % 8 < 4 ? held + how % 4 - (held > 0) : byte() % (JOURNAL + LONGEST), many = 3 * room + how / 8 % 3;
    uint32_t *words = blank(many * sizeof *words);
    const uint32_t wanted = listed(board, room), result = adomvik_list(row, boards, board, words, many);
    const size_t count = result < 256 ? result : 0;
    HOLDS(result == wanted && row_stays() && is_blank(words + 3 * count, (many - 3 * count) * sizeof *words));
    for (size_t i = 0; i < count; i++) {
        const adomvik_latching of = entry(&before[board - 1].journal, held, i);
        HOLDS(words[3 * i] == of.cause && words[3 * i + 1] == of.cell && words[3 * i + 2] == of.number);
    }
    listing_by_entries(board, room, wanted, words);
    free(words);
}

/* ---- recordings: a recorder, and its memory in a block of just its size */

enum { HEADER = 8, ACTS_AT = 4, BODY_MOST = 255, A_SAMPLE = 1, A_FRAME = 2, A_READING = 3 };

static adomvik_recorder recorder;
static uint8_t *memory, *memory_before, *memory_other;
static size_t length;

/* What the act that is noted, or the header, should be in memory; more than a body has is not kept. */
static uint8_t act[HEADER + 2 * LONGEST + BODY_MOST];
static size_t size;

static void put(uint32_t n, unsigned bytes)
{
    for (; bytes > 0; bytes--, n >>= 8)
        if (size < sizeof act)
            act[size++] = (uint8_t)n;
}

static void put_all(const uint8_t *from, size_t bytes)
{
    for (size_t i = 0; i < bytes; i++)
        put(from[i], 1);
}

static void end_tape(void)
{
    free(memory_other);
    free(memory_before);
    free(memory);
}

static void lend_tape(size_t bytes)
{
    length = bytes;
    memory = blank(length);
    memory_before = blank(length);
    memory_other = blank(length);
}

/* Where a recording ends at the latest. */
static size_t last_byte(void)
{
    return length < ADOMVIK_RECORDING_MAX ? length : ADOMVIK_RECORDING_MAX;
}

static int same_recorder(adomvik_recorder a, adomvik_recorder b)
{
    return a.used == b.used && a.acts == b.acts && a.stopped == b.stopped && a.verdict == b.verdict;
}

/* A call on both memories came to the same recorder, with this verdict; where that is no 0, the memory is as it was. */
static void judged(adomvik_recorder next, adomvik_recorder again, uint8_t verdict)
{
    HOLDS(same_recorder(next, again) && next.verdict == verdict && memcmp(memory, memory_other, length) == 0);
    HOLDS(verdict == 0 || memcmp(memory, memory_before, length) == 0);
    recorder = next;
    memcpy(memory_before, memory, length);
}

static void begin(void)
{
    adomvik_plan plans[LONGEST];
    const uint8_t how = byte();
    const size_t count = how % 8 ? 1 + byte() % ADOMVIK_BOARDS_MAX : byte() % LONGEST, header = HEADER + 2 * count;
    int good = count >= 1 && count <= ADOMVIK_BOARDS_MAX, garden = 0;
    size = 0;
    put(1, 2);
    put((uint32_t)count, 2);
    put(0, 4);
    for (size_t i = 0; i < count; i++) {
        plans[i] = how % 3 ? adomvik_host(5 + i % 6) : plan();
        const adomvik_board board = started(plans[i]);
        good &= good_board(&board);
        garden |= board.kind == ADOMVIK_GARDEN;
        put(board.kind, 1);
        put(board.count, 1);
    }
    /* as much as it takes, but for one byte or none; some acts more; about where a recording ends at the latest; or little */
    end_tape();
    lend_tape(how < 64 ? header - how % 2 : how < 240 ? header + byte() : how < 248 ? ADOMVIK_RECORDING_MAX - 4 + how % 8 : byte());
    adomvik_plan *list = copy_of(plans, count * sizeof *list);
    const uint8_t verdict = !good ? ADOMVIK_BAD_ROW : garden ? ADOMVIK_NOT_RECORDABLE : header > last_byte() ? ADOMVIK_RECORDING_ROOM : 0;
    const adomvik_recorder next = adomvik_begin(memory, length, list, count), again = adomvik_begin(memory_other, length, list, count);
    HOLDS(next.acts == 0 && next.used == (verdict ? 0 : header));
    HOLDS(next.stopped == (verdict == ADOMVIK_BAD_ROW ? ADOMVIK_NOT_RECORDABLE : verdict));
    HOLDS(verdict != 0 || (memcmp(memory, act, header) == 0 && is_blank(memory + header, length - header)));
    judged(next, again, verdict);
    free(list);
}

/* Any recorder, mostly one that the act fills the memory with, or fails to by a byte. */
static void any_recorder(void)
{
    const uint8_t how = byte();
    if (how >= 128) /* the one that was returned last */
        return;
    recorder.used = how < 96 ? (uint32_t)(last_byte() - size + how % 3 - 1) : word();
    recorder.acts = (uint16_t)(how % 8 ? byte() : 0xff00u + byte());
    recorder.stopped = how % 4 ? 0 : how % 8 ? ADOMVIK_RECORDING_ROOM : byte();
    recorder.verdict = byte();
}

/* The verdict on the act that was put, by a recorder that was not changed yet. */
static uint8_t verdict_on(int recordable)
{
    if ((recorder.stopped != 0 && recorder.stopped != ADOMVIK_RECORDING_ROOM) || !recordable)
        return ADOMVIK_NOT_RECORDABLE;
    if (recorder.stopped != 0 || recorder.used < HEADER || recorder.acts == UINT16_MAX || (uint64_t)recorder.used + size > last_byte())
        return ADOMVIK_RECORDING_ROOM;
    return 0;
}

/* What a note came to: the act stands behind the recording and is counted, and no other byte has moved; or its verdict says why not. */
static void noted(adomvik_recorder next, adomvik_recorder again, int recordable)
{
    const uint8_t verdict = verdict_on(recordable);
    const adomvik_recorder was = recorder;
    if (verdict) {
        HOLDS(next.used == was.used && next.acts == was.acts);
        HOLDS(next.stopped == (verdict == ADOMVIK_RECORDING_ROOM ? ADOMVIK_RECORDING_ROOM : was.stopped));
    } else {
        HOLDS(next.used == was.used + size && next.acts == was.acts + 1 && next.stopped == 0);
        memcpy(memory_before + was.used, act, size);
        memory_before[ACTS_AT] = (uint8_t)next.acts;
        memory_before[ACTS_AT + 1] = (uint8_t)(next.acts >> 8);
        memory_before[ACTS_AT + 2] = memory_before[ACTS_AT + 3] = 0;
        HOLDS(memcmp(memory, memory_before, length) == 0);
    }
    judged(next, again, verdict);
}

/* A number that an act may return, or any. */
static uint8_t returned(void)
{
    const uint8_t how = byte();
    return how < 128 ? 0 : how;
}

static void note_sample(void)
{
    uint32_t cells[LONGEST * 4];
    const uint8_t how = byte();
    const int many = how % 8 == 0; /* about as many as a body has room for, none of them too large */
    const size_t count = many ? 119 + byte() % 5 : how % 4 ? 5 + how % 6 : byte() % (LONGEST * 4);
    const uint32_t board = how % 16 ? byte() : number();
    adomvik_readings x = readings();
    int recordable = count <= (BODY_MOST - 12) / 2 && board <= UINT8_MAX && x.load <= UINT8_MAX && x.thermistor <= UINT16_MAX;
    size = 0;
    put(A_SAMPLE, 1);
    put((uint32_t)(12 + 2 * count), 1);
    put(board, 1);
    put(x.elapsed, 4);
    put(x.load, 1);
    put(x.thermistor, 2);
    put((uint32_t)x.shunt, 4);
    for (size_t i = 0; i < count; i++) {
        cells[i] = many ? 257u * byte() : number();
        recordable &= cells[i] <= UINT16_MAX;
        put(cells[i], 2);
    }
    const uint8_t refusal = returned(), status = byte();
    const uint16_t bled = (uint16_t)(256u * byte() + byte());
    put(refusal, 1);
    if (refusal == 0) {
        put(status, 1);
        put(bled, 2);
    }
    any_recorder();
    uint32_t *list = copy_of(cells, count * sizeof *list);
    const adomvik_recorder next = adomvik_note_sample(recorder, memory, length, board, x, list, count, refusal, status, bled);
    noted(next, adomvik_note_sample(recorder, memory_other, length, board, x, list, count, refusal, status, bled), recordable);
    free(list);
}

static void note_frame(void)
{
    uint8_t sent[BODY_MOST + LONGEST], reply[LONGEST];
    const uint8_t how = byte();
    const size_t bytes = how % 4 ? 4 : how % 16 ? byte() % LONGEST : BODY_MOST - 1u + byte() % 4, room = how >= 64 ? 4 : byte() % LONGEST;
    for (size_t i = 0; i < bytes; i++)
        sent[i] = byte();
    for (size_t i = 0; i < room; i++)
        reply[i] = byte();
    const uint8_t refusal = returned();
    size = 0;
    put(A_FRAME, 1);
    put((uint32_t)bytes, 1);
    put_all(sent, bytes);
    put(refusal, 1);
    put_all(reply, refusal == 0 && room >= 4 ? 4 : 0);
    any_recorder();
    uint8_t *frame = copy_of(sent, bytes), *buffer = copy_of(reply, room);
    const adomvik_recorder next = adomvik_note_frame(recorder, memory, length, frame, bytes, buffer, room, refusal);
    noted(next, adomvik_note_frame(recorder, memory_other, length, frame, bytes, buffer, room, refusal), bytes <= BODY_MOST && room >= 4);
    free(buffer);
    free(frame);
}

static void note_reading(void)
{
    const uint8_t refusal = returned(), n[5] = {byte(), byte(), byte(), byte(), byte()};
    size = 0;
    put(A_READING, 1);
    put(0, 1);
    put(refusal, 1);
    put_all(n, refusal == 0 ? 5 : 0);
    any_recorder();
    const adomvik_recorder next = adomvik_note_reading(recorder, memory, length, refusal, n[0], n[1], n[2], n[3], n[4]);
    noted(next, adomvik_note_reading(recorder, memory_other, length, refusal, n[0], n[1], n[2], n[3], n[4]), 1);
}

static void note_other(void)
{
    size = 0;
    any_recorder();
    noted(adomvik_note_other(recorder), adomvik_note_other(recorder), 0);
}

/* ---- checks: of any bytes, of what a recorder has in its memory, and of a day */

enum { RECORDING_MOST = 700, ACTS_MOST = 24, CELLS_AT = 12, ANSWER_MOST = 6 };

/* A recording as it reads: what a check has to tell where it cannot be read, and else its boards and where its acts begin. */
struct parsed {
    uint8_t number;
    size_t at, boards, first;
    uint32_t acts;
};

/* The bytes of an answer behind its 0. */
static size_t rest_of(uint8_t kind)
{
    return 2u + kind;
}

static int wrong_length(uint8_t kind, uint8_t body)
{
    return kind == A_SAMPLE ? body < CELLS_AT || body % 2 != 0 : kind == A_READING && body != 0;
}

/* A field of so many bytes: whether it is there and good. The place stays at a field that is not. */
static int field(struct parsed *p, size_t bytes, size_t there, int good)
{
    p->number = there - p->at < bytes ? ADOMVIK_CUT_SHORT : good ? 0 : ADOMVIK_WRONG_FIELD;
    p->at += p->number ? 0 : bytes;
    return !p->number;
}

static int parse_act(struct parsed *p, const uint8_t *r, size_t there)
{
    const uint8_t *kind = r + p->at, *body = kind + 1; /* looked at where they are there */
    return field(p, 1, there, p->at < there && *kind >= A_SAMPLE && *kind <= A_READING) && field(p, 1, there, p->at < there && !wrong_length(*kind, *body))
        && field(p, *body, there, 1) && field(p, 1, there, 1) && (r[p->at - 1] != 0 || field(p, rest_of(*kind), there, 1));
}

static struct parsed parsed(const uint8_t *r, size_t there)
{
    struct parsed p = {0};
    if (!field(&p, 2, there, there >= 2 && r[0] == 1 && r[1] == 0)
        || !field(&p, 2, there, there >= 4 && r[2] >= 1 && r[2] <= ADOMVIK_BOARDS_MAX && r[3] == 0) || !field(&p, 4, there, 1))
        return p;
    p.boards = r[2];
    p.acts = r[4] | (uint32_t)r[5] << 8 | (uint32_t)r[6] << 16 | (uint32_t)r[7] << 24;
    for (size_t i = 0; i < p.boards; i++)
        if (!field(&p, 1, there, p.at < there && r[p.at] <= ADOMVIK_HOST)
            || !field(&p, 1, there, p.at < there && r[p.at] >= ADOMVIK_CELLS_MIN && r[p.at] <= ADOMVIK_CELLS_MAX))
            return p;
    p.first = p.at;
    for (uint32_t i = 0; i < p.acts; i++)
        if (!parse_act(&p, r, there))
            return p;
    p.number = p.at < there ? ADOMVIK_LEFT_OVER : 0;
    return p;
}

static uint32_t number_at(const uint8_t *r, unsigned bytes)
{
    return bytes ? *r + 256 * number_at(r + 1, bytes - 1) : 0;
}

/* The answer of the act that begins here, made by its own entry on a stack: how many bytes it has. */
static size_t answered(adomvik_board *stack, size_t count, const uint8_t *act_at, uint8_t *answer)
{
    const uint8_t kind = act_at[0], body = act_at[1], *b = act_at + 2;
    if (kind == A_SAMPLE) {
        uint32_t cells[BODY_MOST];
        for (unsigned i = CELLS_AT; i < body; i += 2)
            cells[(i - CELLS_AT) / 2] = number_at(b + i, 2);
        const adomvik_readings x = {number_at(b + 1, 4), (int32_t)number_at(b + 8, 4), number_at(b + 6, 2), b[5]};
        adomvik_sampled told = {0, 0};
        answer[0] = adomvik_sample(stack, count, b[0], x, cells, (body - CELLS_AT) / 2u, &told);
        answer[1] = told.status;
        answer[2] = (uint8_t)told.bled;
        answer[3] = (uint8_t)(told.bled >> 8);
    } else if (kind == A_FRAME) {
        answer[0] = adomvik_frame(stack, count, b, body, answer + 1, 4);
    } else {
        adomvik_reading told = {0, 0, 0, 0, 0};
        answer[0] = adomvik_read(stack, count, &told);
        memcpy(answer + 1, &told, sizeof told);
    }
    return answer[0] ? 1 : 1 + rest_of(kind);
}

/* Opens the boards of a recording that reads well and makes its acts up to the first that is answered otherwise: its place, or 0. */
static uint32_t first_wrong(adomvik_board *stack, const struct parsed *p, const uint8_t *r)
{
    adomvik_plan plans[ADOMVIK_BOARDS_MAX];
    for (size_t i = 0; i < p->boards; i++)
        plans[i] = r[HEADER + 2 * i] == ADOMVIK_HOST ? adomvik_host(r[HEADER + 2 * i + 1]) : adomvik_stand_alone(r[HEADER + 2 * i + 1]);
    HOLDS(adomvik_open_plans(stack, p->boards, plans, p->boards) == 0);
    size_t from = p->first;
    for (uint32_t place = 1; place <= p->acts; place++) {
        uint8_t answer[ANSWER_MOST];
        const size_t told = answered(stack, p->boards, r + from, answer);
        from += 2u + r[from + 1];
        if (r[from] != answer[0] || memcmp(r + from, answer, told) != 0)
            return place;
        from += told;
    }
    return 0;
}

/* Checks these bytes, on two rows that are alike, each in a block of just their size; what it told. */
static adomvik_checked check_bytes(const uint8_t *bytes, size_t count)
{
    uint8_t *one = copy_of(bytes, count), *two = copy_of(bytes, count);
    const struct parsed p = parsed(bytes, count);
    const uint8_t refusal = p.number ? p.number : ADOMVIK_BAD_ROW;
    const size_t place = p.number ? p.at : p.boards;
    if (boards != p.boards) { /* what adomvik_check calls wants a row of just as many */
        const adomvik_checked wanted = adomvik_check_row(row, boards, one, count);
        HOLDS(wanted.number == refusal && wanted.place == place && row_stays());
    }
    const adomvik_checked told = adomvik_check(row, boards, one, count), again = adomvik_check(other, boards, two, count);
    HOLDS(told.number == again.number && told.place == again.place);
    HOLDS(memcmp(one, bytes, count) == 0 && memcmp(two, bytes, count) == 0);
    both_alike();
    if (p.number || boards < p.boards) {
        HOLDS(told.number == refusal && told.place == place && row_stays());
    } else {
        adomvik_board *stack = copy_of(before, boards * sizeof *stack);
        HOLDS(told.number == 0 && told.place == first_wrong(stack, &p, bytes));
        for (size_t i = 0; i < boards; i++)
            HOLDS(i < p.boards ? alike(&row[i], &stack[i]) : same(&row[i], &before[i]));
        free(stack);
    }
    free(two);
    free(one);
    return told;
}

/* A byte of it changed, at times to a refusal's number, or its end cut off, or both, and checked again by a fresh look at the row. */
static void check_spoilt(uint8_t *bytes, size_t count)
{
    const uint8_t how = byte();
    if (count > 0 && how % 4) {
        uint8_t *spoilt = &bytes[(how % 8 ? word() : byte()) % count];
        *spoilt = (uint8_t)(how >= 128 ? byte() % (ADOMVIK_LEFT_OVER + 2) : *spoilt ^ (1 + how / 4));
    }
    look_again();
    check_bytes(bytes, how % 4 == 3 || count == 0 ? count : count - byte() % (count < 16 ? count : 16));
}

/* Any bytes, at times behind a header and boards that read well. */
static void check_any(void)
{
    uint8_t bytes[RECORDING_MOST];
    const uint8_t how = byte();
    size_t count = 0, wanted = how % 4 ? byte() : 2u * byte();
    if (how % 8) {
        const uint8_t several = (uint8_t)(1 + how / 8 % ADOMVIK_BOARDS_MAX), head[HEADER] = {1, 0, several, 0, byte() % 16, 0, 0, 0};
        memcpy(bytes, head, HEADER);
        for (count = HEADER; count < HEADER + 2u * several; count += 2) {
            bytes[count] = byte() % 2;
            bytes[count + 1] = (uint8_t)(ADOMVIK_CELLS_MIN + byte() % 6);
        }
    }
    for (; wanted > 0 && at < end; wanted--)
        bytes[count++] = byte();
    check_bytes(bytes, count);
    check_spoilt(bytes, count);
}

/* What a recorder has in its memory, where it has that much: acts that need never have been made. */
static void check_recorded(void)
{
    if (recorder.used > length || recorder.used > RECORDING_MOST)
        return;
    uint8_t *bytes = copy_of(memory, recorder.used);
    check_bytes(bytes, recorder.used);
    check_spoilt(bytes, recorder.used);
    free(bytes);
}

/* An act of a day: made, and noted with its answer. */
static adomvik_recorder lived(adomvik_board *stack, size_t count, adomvik_recorder r, uint8_t *tape)
{
    const uint8_t how = byte();
    if (how % 8 == 0) {
        adomvik_reading told = {0, 0, 0, 0, 0};
        const uint8_t result = adomvik_read(stack, count, &told);
        return adomvik_note_reading(r, tape, RECORDING_MOST, result, told.line, told.chg, told.dsg, told.board, told.cell);
    }
    if (how % 8 < 4) {
        uint8_t sent[4] = {(uint8_t)(how / 8 % 2 ? 2 + byte() % (2 * count) : byte()), byte() % 32, byte(), 0}, reply[4] = {0};
        sent[3] = (uint8_t)(check(sent, 3) ^ (how / 16 == 0));
        const size_t bytes = how / 32 ? 4 : byte() % 5;
        const uint8_t result = adomvik_frame(stack, count, sent, bytes, reply, 4);
        return adomvik_note_frame(r, tape, RECORDING_MOST, sent, bytes, reply, 4, result);
    }
    uint32_t cells[LONGEST];
    const uint32_t board = how / 8 % 8 ? 1 + byte() % (uint32_t)count : byte();
    const adomvik_readings x = readings();
    const size_t many = cells_for(cells, board >= 1 && board <= count ? stack[board - 1].count : 5);
    adomvik_sampled told = {0, 0};
    const uint8_t result = adomvik_sample(stack, count, board, x, cells, many, &told);
    return adomvik_note_sample(r, tape, RECORDING_MOST, board, x, cells, many, result, told.status, told.bled);
}

/* A day of a few boards: its recording is right, and leaves the day's stack where all of it was recorded. */
static void check_day(void)
{
    adomvik_plan plans[3];
    const size_t count = 1 + byte() % 3;
    for (size_t i = 0; i < count; i++)
        plans[i] = byte() % 2 ? adomvik_host(ADOMVIK_CELLS_MIN + byte() % 6u) : adomvik_stand_alone(ADOMVIK_CELLS_MIN + byte() % 6u);
    adomvik_board *stack = lent(count * sizeof *stack);
    uint8_t *tape = blank(RECORDING_MOST);
    HOLDS(adomvik_open_plans(stack, count, plans, count) == 0);
    adomvik_recorder r = adomvik_begin(tape, RECORDING_MOST, plans, count);
    for (unsigned acts = byte() % ACTS_MOST; acts > 0 && r.stopped == 0; acts--)
        r = lived(stack, count, r, tape);
    const adomvik_checked told = check_bytes(tape, r.used);
    HOLDS(told.place == (boards < count ? count : 0) && told.number == (boards < count ? ADOMVIK_BAD_ROW : 0));
    for (size_t i = 0; i < count && boards >= count && r.stopped == 0; i++)
        HOLDS(alike(&row[i], &stack[i]));
    check_spoilt(tape, r.used);
    free(tape);
    free(stack);
}

/* The kind and the cells of a board that there can be, and its row and trigger. */
static void make_good(adomvik_board *board, uint8_t how)
{
    board->kind = how % 3;
    if (board->kind == ADOMVIK_GARDEN) {
        board->count = (uint8_t)(ADOMVIK_GARDEN_CELLS_MIN + how / 3 % 3);
        board->garden.row = how / 9 % 3;
        board->garden.trigger = (uint8_t)(1 + how / 27);
    } else {
        board->count = (uint8_t)(ADOMVIK_CELLS_MIN + how / 3 % 6);
    }
}

/* A journal of any place and length. Its entries are more than an input should spend its bytes on: they go on from one number. */
static void overwrite_journal(adomvik_board *board)
{
    uint32_t n = word();
    for (size_t i = 0; i < JOURNAL; i++, n = 1664525 * n + 1013904223) {
        board->journal.numbers[i] = n;
        board->journal.whats[i] = (uint8_t)(n >> 24);
    }
    board->journal.next = byte();
    board->journal.len = byte();
    if (byte() % 2) /* a number at its top, or three short of it at most */
        board->samples |= ~(uint32_t)3;
}

/* Garbage over a record, mostly one that a row may have. */
static void overwrite(void)
{
    if (boards == 0)
        return;
    adomvik_board *place = &row[byte() % boards];
    const uint8_t how = byte();
    for (size_t i = 0; i < offsetof(adomvik_board, journal); i++)
        ((uint8_t *)place)[i] = byte();
    overwrite_journal(place);
    if (byte() % 8)
        make_good(place, how);
    if (byte() % 2) /* tallies that have stopped, or are three short of it at most */
        for (size_t i = 0; i < sizeof place->tallies; i++)
            ((uint8_t *)&place->tallies)[i] |= (uint8_t)(i % 2 ? 0xff : 0xfc);
    if (byte() % 2) /* no latch, so that a search goes on north */
        place->latches &= (uint8_t)~FAULTS;
}

static void make_row(void)
{
    boards = byte() % RECORDS;
    row = lent(boards * sizeof *row);
    before = lent(boards * sizeof *row);
    other = lent(boards * sizeof *row);
    memset(row, 0, boards * sizeof *row);
    for (size_t i = 0; i < boards; i++)
        make_good(&row[i], byte());
}

int LLVMFuzzerTestOneInput(const uint8_t *data, size_t size)
{
    static void (*const acts[])(void) = {sample_row, frame, sample_row, frame, reading, sample_one, open_row, overwrite, open_plans, listing, fault_line,
                                         begin, note_sample, note_frame, note_reading, note_other, check_any, check_recorded, check_day};
    at = data;
    end = data + size;
    make_row();
    lend_tape(0);
    recorder = (adomvik_recorder){0};
    while (at < end) {
        const uint8_t which = byte();
        look_again();
        acts[which % (sizeof acts / sizeof *acts)]();
    }
    end_tape();
    free(other);
    free(before);
    free(row);
    return 0;
}
