/* The library by hand in C11: a yardstick for its speed and size. It shares no code with it and is meant to be what a C
 * programmer would write who wants it fast and still plain: sets of cells are masks, a run is touched only while its condition
 * holds, and the check byte goes by a table of half bytes.
 */
#include "face_peer.h"

#include <stdbool.h>
#include <string.h>

enum { SCD = 1, OCD = 2, OV = 4, UV = 8, HOT = 16, DSG_ON = 64, CHG_ON = 128 };
enum { CYCLES_MAX = 3, PROGRAM = 0x41 };
enum { RUN_MAX = 8000001 }; /* past the longest delay: counting on would tell nothing more */
enum { STAND_ALONE = 0, HOST = 1, GARDEN = 2 };
enum { CLEAR_BIT = 1, DSG_BIT = 2, CHG_BIT = 4, CONTROL_MAX = 7 };
enum { TALLIES = 5, TALLY_LOW = 16, TALLY_HIGH = 8 }; /* a high byte's register lies 8 above the low one's, as its bits do */
enum { JOURNAL = 128, WORDS = 3 }; /* words of an entry in a listing */
enum { STOPS_DSG = UV | OCD | SCD | HOT, STOPS_CHG = OV | OCD | SCD | HOT };

static const int32_t ov_hysteresis[4] = {100, 200, 300, 0};
static const int32_t uv_hysteresis[4] = {200, 400, 800, 1200};
static const int32_t uv_delay[16] = {
    0, 1250, 2500, 5000, 10000, 15000, 20000, 30000,
    1000000, 2000000, 3000000, 4000000, 5000000, 6000000, 7000000, 8000000,
};

/* The rows of garden boards: where each fault is past its level, and where it is inside level and hysteresis. */
struct device {
    uint16_t ov, ov_inside, uv, uv_inside;
    bool load_removal;
};

enum { DEVICES = 3 };

static const struct device devices[DEVICES] = {
    {4200, 4000, 2900, 3300, true},
    {4250, 4050, 2800, 3200, true},
    {4275, 4175, 2000, 2200, false},
};

/* CRC-8 with polynomial 7 by halves: what four shifts make of each half byte, moved to the upper half of a byte. */
static const uint8_t crc_table[16] = {
    0x00, 0x07, 0x0e, 0x09, 0x1c, 0x1b, 0x12, 0x15, 0x38, 0x3f, 0x36, 0x31, 0x24, 0x23, 0x2a, 0x2d,
};

/* ---- rows */

static inline bool good_board(uint32_t kind, uint32_t cells, uint32_t row, uint32_t trigger)
{
    if (kind == GARDEN)
        return cells - 3 <= 2 && row < DEVICES && trigger;
    return kind <= HOST && cells - 5 <= 5;
}

static inline bool good_plan(uint32_t plan)
{
    return good_board(plan >> 8 & 255, plan & 255, plan >> 16 & 255, plan >> 24);
}

static inline bool good(const struct peer_board *b)
{
    return good_board(b->kind, b->cells, b->row, b->trigger);
}

static bool good_row(const struct peer_board *row, size_t boards)
{
    if (boards - 1 > 15)
        return false;
    unsigned bad = 0;
    for (size_t i = 0; i < boards; i++)
        bad |= !good(&row[i]);
    return !bad;
}

/* A board as it starts by a good plan; no fault is over on a last sample such as this. */
static void start(struct peer_board *b, uint32_t plan)
{
    memset(b, 0, sizeof *b);
    b->cells = (uint8_t)plan;
    b->kind = (uint8_t)(plan >> 8);
    b->row = (uint8_t)(plan >> 16);
    b->trigger = (uint8_t)(plan >> 24);
    b->latches = b->kind == GARDEN ? OV : 0;
    b->high = UINT16_MAX;
    b->shunt = INT32_MAX;
}

uint8_t peer_open(struct peer_board *row, size_t boards, const uint32_t *counts, size_t count)
{
    if (count != boards || count - 1 > 15)
        return 1;
    for (size_t i = 0; i < count; i++)
        if (!good_board(STAND_ALONE, counts[i], 0, 0))
            return 1;
    for (size_t i = 0; i < boards; i++)
        start(&row[i], counts[i]);
    return 0;
}

uint8_t peer_open_plans(struct peer_board *row, size_t boards, const adomvik_plan *plans, size_t count)
{
    if (count != boards || count - 1 > 15)
        return 1;
    for (size_t i = 0; i < count; i++)
        if (!good_plan(plans[i].number))
            return 1;
    for (size_t i = 0; i < boards; i++)
        start(&row[i], plans[i].number);
    return 0;
}

/* ---- samples */

static inline unsigned status(const struct peer_board *b)
{
    const unsigned may = b->kind == HOST ? b->control : DSG_BIT | CHG_BIT;
    unsigned value = b->latches;
    if (!(b->latches & STOPS_DSG) && (may & DSG_BIT))
        value |= DSG_ON;
    if (!(b->latches & STOPS_CHG) && (may & CHG_BIT))
        value |= CHG_ON;
    return value;
}

/* Register 1 where these faults latch. */
static inline unsigned forbidden(unsigned control, unsigned latching)
{
    if (latching & STOPS_DSG)
        control &= ~(unsigned)DSG_BIT;
    if (latching & STOPS_CHG)
        control &= ~(unsigned)CHG_BIT;
    return control;
}

static inline unsigned next_latch(unsigned latches, unsigned fault, bool stood, bool lets_go)
{
    if (latches & fault)
        return lets_go ? latches & ~fault : latches;
    return stood ? latches | fault : latches;
}

/* These faults latch, OV and UV by these cells: each is tallied and entered in the journal, the lowest bit first. It is out of line,
 * since most samples latch nothing. */
static __attribute__((noinline)) void keep(struct peer_board *b, unsigned latching, unsigned over, unsigned under)
{
    for (; latching; latching &= latching - 1) {
        const unsigned cause = (unsigned)__builtin_ctz(latching), fault = 1u << cause, cells = fault == OV ? over : fault == UV ? under : 0;
        const unsigned cell = cells ? (unsigned)__builtin_ctz(cells) + 1 : 0;
        if (b->tallies[cause] < UINT16_MAX)
            b->tallies[cause]++;
        b->numbers[b->next] = b->samples;
        b->whats[b->next] = (uint8_t)(cause << 4 | cell);
        b->next = (b->next + 1) % JOURNAL;
        b->len = (uint8_t)(b->len + (b->len < JOURNAL));
    }
}

/* The run of a condition that holds, in a set of conditions that held before. */
static inline int32_t next_run(int32_t run, bool running, int32_t elapsed)
{
    if (!running)
        return 0;
    run += elapsed;
    return run < RUN_MAX ? run : RUN_MAX;
}

/* The shortest run that has stood a delay: one that is longer, but any where there is no delay. */
static inline int32_t least_run(int32_t delay)
{
    return delay ? delay + 1 : 0;
}

static unsigned bled(unsigned flags)
{
    unsigned taken = 0;
    while (flags) {
        const unsigned top = 1u << (31 - __builtin_clz(flags));
        taken |= top;
        flags &= ~(top | top >> 1 | top >> 2);
    }
    return taken;
}

static inline uint32_t ov_mv(const uint8_t *settings)
{
    return 4150 + 50 * (settings[0] & 7u);
}

static inline uint32_t uv_mv(const uint8_t *settings)
{
    return 1400 + 100 * (settings[1] & 15u);
}

static inline int32_t ocd_uv(const uint8_t *settings)
{
    return 10000 + 5000 * (settings[3] & 15);
}

static inline int32_t scd_uv(const uint8_t *settings)
{
    return 60000 + 5000 * (settings[4] & 15);
}

/* The counts of a fault that is not latched, zero where nothing was counted: the bit of the lowest cell whose count reaches the
 * trigger. None passes it, so they need no cap. */
static inline unsigned count_cells(int32_t *counts, uint16_t *counted, const uint32_t *cells, unsigned n, uint32_t level, bool above, int32_t trigger)
{
    const bool begun = *counted;
    int32_t most = 0;
    for (unsigned i = 0; i < n; i++) {
        const bool past = above ? cells[i] > level : cells[i] < level;
        const int32_t was = begun ? counts[i] : 0, now = past ? was + 1 : was - (was > 0);
        counts[i] = now;
        most = now > most ? now : most;
    }
    *counted = most > 0 && most < trigger;
    if (most < trigger)
        return 0;
    unsigned bit = 1;
    while (*counts++ < trigger)
        bit <<= 1;
    return bit;
}

/* The recovery count of a fault that is latched: whether it stays so. */
static inline bool stays(uint8_t *back, bool inside, int trigger)
{
    const int count = inside ? *back + 1 : *back - (*back > 0);
    *back = (uint8_t)(count < trigger ? count : 0);
    return count < trigger;
}

/* A sample of a garden board that was found in range. */
static void grow(struct peer_board *b, bool load, const uint32_t *cells, uint32_t least, uint32_t most, adomvik_sampled *out)
{
    const struct device *d = &devices[b->row];
    unsigned over = 0, under = 0;
    bool ov = false, uv = false;
    if (b->latches & OV) {
        ov = stays(&b->ov_back, most < d->ov_inside, b->trigger);
        b->over = 0;
    } else {
        b->ov_back = 0;
        if (b->over || most > d->ov)
            over = count_cells(b->ov_run, &b->over, cells, b->cells, d->ov, true, b->trigger);
        ov = over != 0;
    }
    if (b->latches & UV) {
        uv = stays(&b->uv_back, least > d->uv_inside && !(load && d->load_removal), b->trigger);
        b->under = 0;
    } else {
        b->uv_back = 0;
        if (b->under || least < d->uv)
            under = count_cells(b->uv_run, &b->under, cells, b->cells, d->uv, false, b->trigger);
        uv = under != 0;
    }
    const unsigned latches = (unsigned)(ov * OV | uv * UV);
    if (latches & ~b->latches)
        keep(b, latches & ~b->latches, over, under);
    b->latches = (uint8_t)latches;
    out->status = (uint8_t)(b->latches | !ov * CHG_ON | !uv * DSG_ON);
    out->bled = 0;
}

static inline uint8_t step(struct peer_board *b, adomvik_readings x, const uint32_t *cells, size_t count, adomvik_sampled *out)
{
    if (count != b->cells)
        return 3;
    if (x.elapsed - 1 > 99999)
        return 4;
    const uint8_t *w = b->working;
    const uint32_t ov_level = ov_mv(w);
    const uint32_t ov_low = ov_level - (uint32_t)ov_hysteresis[w[0] >> 3 & 3];
    const uint32_t uv_level = uv_mv(w);
    const uint32_t uv_sum = uv_level + (uint32_t)uv_hysteresis[w[1] >> 4 & 3];
    const uint32_t uv_release = uv_sum < 3300 ? uv_sum : 3300;

    /* nothing is changed before every reading has been looked at; the highest and the lowest say all of a quiet board */
    uint32_t most = 0, least = UINT32_MAX;
    for (size_t i = 0; i < count; i++) {
        most = cells[i] > most ? cells[i] : most;
        least = cells[i] < least ? cells[i] : least;
    }
    if (most > 5000 || x.thermistor > 5000 || x.shunt < -500000 || x.shunt > 500000 || x.load > 1)
        return 5;
    b->low = (uint16_t)least;
    b->high = (uint16_t)most;
    b->shunt = x.shunt;
    b->samples += b->samples < UINT32_MAX;
    if (b->kind == GARDEN) {
        grow(b, x.load, cells, least, most, out);
        return 0;
    }

    const int32_t elapsed = (int32_t)x.elapsed;
    unsigned over = 0, under = 0, ov_stood = 0, uv_stood = 0, flags = b->flags;
    if (most > ov_level || flags) {
        const int32_t wait = least_run(500000 + 250000 * (w[0] >> 5));
        unsigned low = 0;
        for (size_t i = 0; i < count; i++) {
            if (cells[i] > ov_level) {
                const int32_t run = b->ov_run[i] = next_run(b->ov_run[i], b->over >> i & 1, elapsed);
                over |= 1u << i;
                ov_stood |= (unsigned)(run >= wait) << i;
            }
            low |= (unsigned)(cells[i] < ov_low) << i;
        }
        flags = (flags & ~low) | ov_stood;
    }
    if (least < uv_level) {
        const int32_t wait = least_run(uv_delay[w[3] >> 4]);
        for (size_t i = 0; i < count; i++)
            if (cells[i] < uv_level) {
                const int32_t run = b->uv_run[i] = next_run(b->uv_run[i], b->under >> i & 1, elapsed);
                under |= 1u << i;
                uv_stood |= (unsigned)(run >= wait) << i;
            }
    }
    b->over = (uint16_t)over;
    b->under = (uint16_t)under;
    b->flags = (uint16_t)flags;

    const int32_t ocd_level = ocd_uv(w), scd_level = scd_uv(w);
    const bool ocd_over = x.shunt > ocd_level, scd_over = x.shunt > scd_level;
    bool ocd_stood = false, scd_stood = false;
    if (ocd_over) {
        const int32_t code = w[2] & 31;
        b->ocd_run = next_run(b->ocd_run, b->currents & OCD, elapsed);
        ocd_stood = b->ocd_run >= least_run(code < 16 ? 20000 * (code + 1) : 100000 * (code - 15));
    }
    if (scd_over) {
        b->scd_run = next_run(b->scd_run, b->currents & SCD, elapsed);
        scd_stood = b->scd_run >= least_run(60 * (w[4] >> 4));
    }
    b->currents = (uint8_t)(ocd_over * OCD | scd_over * SCD);

    /* a host clears these four itself */
    const bool alone = b->kind != HOST, unloaded = alone && !x.load;
    unsigned latches = b->latches;
    latches = next_latch(latches, OV, ov_stood != 0, alone && most < ov_low);
    latches = next_latch(latches, UV, uv_stood != 0, alone && least > uv_release);
    latches = next_latch(latches, OCD, ocd_stood, unloaded && !ocd_over);
    latches = next_latch(latches, SCD, scd_stood, unloaded && !scd_over);
    const bool hot = x.thermistor < 975;
    latches = next_latch(latches, HOT, hot, !hot);
    const unsigned latching = latches & ~b->latches;
    if (!alone)
        b->control = (uint8_t)forbidden(b->control, latching);
    if (latching)
        keep(b, latching, ov_stood, uv_stood);
    b->latches = (uint8_t)latches;
    out->status = (uint8_t)status(b);
    out->bled = (uint16_t)bled(b->flags);
    return 0;
}

uint8_t peer_sample_board(struct peer_board *board, adomvik_readings readings, const uint32_t *cells, size_t count, adomvik_sampled *out)
{
    if (!good(board))
        return 1;
    return step(board, readings, cells, count, out);
}

uint8_t peer_sample(struct peer_board *row, size_t boards, uint32_t board, adomvik_readings readings, const uint32_t *cells, size_t count, adomvik_sampled *out)
{
    if (!good_row(row, boards))
        return 1;
    if (board - 1u >= boards)
        return 2;
    return step(&row[board - 1], readings, cells, count, out);
}

/* ---- frames */

static inline uint8_t next_half(uint8_t check)
{
    return (uint8_t)(check << 4 ^ crc_table[check >> 4]);
}

static inline uint8_t next_check(uint8_t check, unsigned byte)
{
    return next_half(next_half((uint8_t)(check ^ byte)));
}

static unsigned check_byte(unsigned address, unsigned reg, unsigned value)
{
    return next_check(next_check(next_check(0, address), reg), value);
}

static bool allowed_setting(unsigned reg, unsigned value)
{
    if (reg == 7)
        return value < 64;
    if (reg == 8)
        return value < 32;
    return true;
}

/* The faults that are over on the last sample, by the levels of now. */
static unsigned over_now(const struct peer_board *b)
{
    const uint8_t *w = b->working;
    unsigned over = 0;
    if (b->high < ov_mv(w))
        over |= OV;
    if (b->low > uv_mv(w))
        over |= UV;
    if (b->shunt <= ocd_uv(w))
        over |= OCD;
    if (b->shunt <= scd_uv(w))
        over |= SCD;
    return over;
}

static void set_control(struct peer_board *b, unsigned value)
{
    if (b->control & ~value & CLEAR_BIT)
        b->latches = (uint8_t)(b->latches & ~over_now(b));
    b->control = (uint8_t)value;
}

/* Programs the board: 13 for staged levels that are crossed, 11 if it has no cycle left for a real change, or 0. */
static uint8_t program(struct peer_board *b)
{
    if (ocd_uv(b->staged) >= scd_uv(b->staged))
        return 13;
    if (memcmp(b->staged, b->working, sizeof b->staged) == 0)
        return 0;
    if (b->cycles >= CYCLES_MAX)
        return 11;
    memcpy(b->working, b->staged, sizeof b->staged);
    b->cycles++;
    b->over = b->under = 0;
    b->currents = 0;
    return 0;
}

/* A frame to a good row. */
static inline uint8_t obey(struct peer_board *row, size_t boards, const uint8_t *frame, size_t length, uint8_t *reply, size_t room)
{
    if (length != 4)
        return 6;
    if (room < 4)
        return 7;
    const unsigned address = frame[0], reg = frame[1];
    unsigned value = frame[2];
    if (check_byte(address, reg, value) != frame[3])
        return 8;
    const unsigned number = address >> 1;
    const bool write = address & 1;
    if (number - 1u >= boards)
        return 2;
    struct peer_board *b = &row[number - 1];
    const bool set = b->kind != GARDEN, setting = set && reg >= 6 && reg <= 10, cycles = set && reg == 11, control = reg == 1 && b->kind == HOST;
    if (!write) {
        const unsigned tallied = (reg & ~(unsigned)TALLY_HIGH) - TALLY_LOW;
        unsigned kept;
        if (reg == 0)
            kept = status(b);
        else if (setting)
            kept = b->working[reg - 6];
        else if (cycles)
            kept = b->cycles;
        else if (control)
            kept = b->control;
        else if (tallied < TALLIES)
            kept = (uint8_t)(b->tallies[tallied] >> (reg & TALLY_HIGH));
        else
            return 9;
        if (value != 0)
            return 10;
        value = kept;
    } else if (control) {
        if (value > CONTROL_MAX)
            return 10;
        set_control(b, value);
    } else if (setting) {
        if (!allowed_setting(reg, value))
            return 10;
        b->staged[reg - 6] = (uint8_t)value;
    } else if (cycles) {
        if (value != PROGRAM)
            return 10;
        const uint8_t refusal = program(b);
        if (refusal)
            return refusal;
        value = b->cycles;
    } else {
        return 9;
    }
    reply[0] = (uint8_t)address;
    reply[1] = (uint8_t)reg;
    reply[2] = (uint8_t)value;
    reply[3] = (uint8_t)check_byte(address, reg, value);
    return 0;
}

uint8_t peer_frame(struct peer_board *row, size_t boards, const uint8_t *frame, size_t length, uint8_t *reply, size_t room)
{
    if (!good_row(row, boards))
        return 1;
    return obey(row, boards, frame, length, reply, room);
}

/* ---- the reading */

/* Of a good row. */
static inline void gather(const struct peer_board *row, size_t boards, adomvik_reading *out)
{
    unsigned latches = 0, pack = CHG_ON | DSG_ON, board = 0, cell = 0;
    for (size_t i = 0; i < boards; i++) {
        latches |= row[i].latches;
        pack &= status(&row[i]);
        if (row[i].flags && !board) {
            board = (unsigned)i + 1;
            cell = (unsigned)__builtin_ctz(row[i].flags) + 1;
        }
    }
    out->line = latches != 0;
    out->chg = (pack & CHG_ON) != 0;
    out->dsg = (pack & DSG_ON) != 0;
    out->board = (uint8_t)board;
    out->cell = (uint8_t)cell;
}

uint8_t peer_read(const struct peer_board *row, size_t boards, adomvik_reading *out)
{
    if (!good_row(row, boards))
        return 1;
    gather(row, boards, out);
    return 0;
}

/* ---- the fault line alone */

uint8_t peer_up(const struct peer_board *row, size_t boards, adomvik_line *out)
{
    if (!good_row(row, boards))
        return 1;
    size_t looked = 1;
    while (looked < boards && !row[looked - 1].latches)
        looked++;
    out->line = row[looked - 1].latches != 0;
    out->looked = (uint8_t)looked;
    return 0;
}

/* ---- listings */

uint32_t peer_list(const struct peer_board *row, size_t boards, uint32_t board, uint32_t *words, size_t many)
{
    if (!good_row(row, boards))
        return 256 + 1;
    if (board - 1u >= boards)
        return 256 + 2;
    const struct peer_board *b = &row[board - 1];
    const unsigned len = b->len;
    if (many < WORDS * len)
        return 256 + 14;
    const unsigned oldest = b->next + JOURNAL - len;
    for (unsigned i = 0; i < len; i++, words += WORDS) {
        const unsigned place = (oldest + i) % JOURNAL, what = b->whats[place];
        words[0] = what >> 4;
        words[1] = what & 15;
        words[2] = b->numbers[place];
    }
    return len;
}

/* ---- recordings; every processor here has the lowest byte first, as a recording has */

enum { RECORDING_MAX = 65535, HEADER = 8, ACTS_AT = 4, BODY_MAX = 255, SAMPLE_HEAD = 12, NOTED_CELLS_MAX = (BODY_MAX - SAMPLE_HEAD) / 2 };
enum { NOTED_SAMPLE = 1, NOTED_FRAME = 2, NOTED_READING = 3 };
enum { NOT_RECORDABLE = 15, NO_ROOM = 16 };

static inline uint8_t *put2(uint8_t *to, uint32_t n)
{
    const uint16_t half = (uint16_t)n;
    memcpy(to, &half, sizeof half);
    return to + sizeof half;
}

static inline uint8_t *put4(uint8_t *to, uint32_t n)
{
    memcpy(to, &n, sizeof n);
    return to + sizeof n;
}

static inline adomvik_recorder nothing_recorded(uint8_t stopped, uint8_t verdict)
{
    return (adomvik_recorder){.stopped = stopped, .verdict = verdict};
}

adomvik_recorder peer_begin(uint8_t *memory, size_t length, const adomvik_plan *plans, size_t count)
{
    if (count - 1 > 15)
        return nothing_recorded(NOT_RECORDABLE, 1);
    bool bad = false, garden = false;
    for (size_t i = 0; i < count; i++) {
        bad |= !good_plan(plans[i].number);
        garden |= (plans[i].number >> 8 & 255) == GARDEN;
    }
    if (bad || garden)
        return nothing_recorded(NOT_RECORDABLE, bad ? 1 : NOT_RECORDABLE);
    const uint32_t used = (uint32_t)(HEADER + 2 * count);
    if (used > length)
        return nothing_recorded(NO_ROOM, NO_ROOM);
    uint8_t *to = put4(put2(put2(memory, 1), (uint32_t)count), 0);
    for (size_t i = 0; i < count; i++) {
        *to++ = (uint8_t)(plans[i].number >> 8);
        *to++ = (uint8_t)plans[i].number;
    }
    return (adomvik_recorder){.used = used};
}

static inline adomvik_recorder not_recordable(adomvik_recorder r)
{
    r.verdict = NOT_RECORDABLE;
    return r;
}

/* Where an act of so many bytes goes, with its kind and the length of its body put there; NULL where it has no place. The act is
 * counted. */
static inline uint8_t *place(adomvik_recorder *r, uint8_t *memory, size_t length, size_t size, uint8_t kind, size_t body)
{
    const size_t end = length < RECORDING_MAX ? length : RECORDING_MAX;
    if (r->stopped || r->used < HEADER || r->acts == UINT16_MAX || size > end || r->used > end - size) {
        if (r->stopped && r->stopped != NO_ROOM)
            r->verdict = NOT_RECORDABLE;
        else
            r->verdict = r->stopped = NO_ROOM;
        return NULL;
    }
    uint8_t *to = memory + r->used;
    r->used += (uint32_t)size;
    r->acts++;
    r->verdict = 0;
    put4(memory + ACTS_AT, r->acts);
    *to++ = kind;
    *to++ = (uint8_t)body;
    return to;
}

adomvik_recorder peer_note_sample(adomvik_recorder r, uint8_t *memory, size_t length, uint32_t board, adomvik_readings x, const uint32_t *cells, size_t count, uint8_t number, uint8_t status, uint16_t bled)
{
    if (board > UINT8_MAX || x.load > UINT8_MAX || x.thermistor > UINT16_MAX || count > NOTED_CELLS_MAX)
        return not_recordable(r);
    uint32_t bits = 0;
    for (size_t i = 0; i < count; i++)
        bits |= cells[i];
    if (bits > UINT16_MAX)
        return not_recordable(r);
    const size_t body = SAMPLE_HEAD + 2 * count;
    uint8_t *to = place(&r, memory, length, 2 + body + (number ? 1 : 4), NOTED_SAMPLE, body);
    if (!to)
        return r;
    *to++ = (uint8_t)board;
    to = put4(to, x.elapsed);
    *to++ = (uint8_t)x.load;
    to = put2(to, x.thermistor);
    to = put4(to, (uint32_t)x.shunt);
    for (size_t i = 0; i < count; i++)
        to = put2(to, cells[i]);
    *to++ = number;
    if (number == 0) {
        *to++ = status;
        put2(to, bled);
    }
    return r;
}

adomvik_recorder peer_note_frame(adomvik_recorder r, uint8_t *memory, size_t length, const uint8_t *frame, size_t bytes, const uint8_t *reply, size_t room, uint8_t number)
{
    if (bytes > BODY_MAX || room < 4)
        return not_recordable(r);
    uint8_t *to = place(&r, memory, length, 2 + bytes + (number ? 1 : 5), NOTED_FRAME, bytes);
    if (!to)
        return r;
    memcpy(to, frame, bytes);
    to += bytes;
    *to++ = number;
    if (number == 0)
        memcpy(to, reply, 4);
    return r;
}

adomvik_recorder peer_note_reading(adomvik_recorder r, uint8_t *memory, size_t length, uint8_t number, uint8_t line, uint8_t chg, uint8_t dsg, uint8_t board, uint8_t cell)
{
    uint8_t *to = place(&r, memory, length, 2 + (number ? 1 : 6), NOTED_READING, 0);
    if (!to)
        return r;
    *to++ = number;
    if (number == 0) {
        const uint8_t answer[5] = {line, chg, dsg, board, cell};
        memcpy(to, answer, sizeof answer);
    }
    return r;
}

adomvik_recorder peer_note_other(adomvik_recorder r)
{
    return not_recordable(r);
}

/* ---- checks: once over the recording for its form, and once more for its acts, on a row that is good from there on */

enum { CUT_SHORT = 17, WRONG_FIELD = 18, LEFT_OVER = 19, EDITION = 1, SAMPLE_REST = 3, FRAME_REST = 4, READING_REST = 5 };

static inline uint32_t get2(const uint8_t *from)
{
    uint16_t half;
    memcpy(&half, from, sizeof half);
    return half;
}

static inline uint32_t get4(const uint8_t *from)
{
    uint32_t n;
    memcpy(&n, from, sizeof n);
    return n;
}

static inline adomvik_checked told(size_t place, uint8_t number)
{
    return (adomvik_checked){place < UINT32_MAX ? (uint32_t)place : UINT32_MAX, number};
}

static inline size_t rest_of(uint8_t kind)
{
    return kind == NOTED_SAMPLE ? SAMPLE_REST : kind == NOTED_FRAME ? FRAME_REST : READING_REST;
}

/* Whether a kind of act has no body of that length. */
static inline bool wrong_body(uint8_t kind, size_t body)
{
    return kind == NOTED_SAMPLE ? body < SAMPLE_HEAD || body % 2 : kind == NOTED_READING && body;
}

/* The acts from a place on: 0, or why they cannot be read, with the place of the field. */
static uint8_t read_acts(const uint8_t *r, size_t length, size_t *at, uint32_t acts)
{
    for (; acts; acts--) {
        const size_t left = length - *at;
        const uint8_t *p = r + *at;
        if (left == 0)
            return CUT_SHORT;
        if (p[0] < NOTED_SAMPLE || p[0] > NOTED_READING)
            return WRONG_FIELD;
        *at += 1;
        if (left == 1)
            return CUT_SHORT;
        const size_t body = p[1];
        if (wrong_body(p[0], body))
            return WRONG_FIELD;
        *at += 1;
        if (left - 2 < body)
            return CUT_SHORT;
        *at += body;
        if (left - 2 == body)
            return CUT_SHORT;
        *at += 1;
        if (p[2 + body])
            continue;
        if (left - 3 - body < rest_of(p[0]))
            return CUT_SHORT;
        *at += rest_of(p[0]);
    }
    return *at < length ? LEFT_OVER : 0;
}

/* The header and the boards, likewise. */
static uint8_t read_boards(const uint8_t *r, size_t length, size_t *at)
{
    if (length < 2)
        return CUT_SHORT;
    if (get2(r) != EDITION)
        return WRONG_FIELD;
    *at = 2;
    if (length < 4)
        return CUT_SHORT;
    const uint32_t boards = get2(r + 2);
    if (boards - 1 > 15)
        return WRONG_FIELD;
    *at = 4;
    if (length < HEADER)
        return CUT_SHORT;
    for (*at = HEADER; *at < HEADER + 2 * boards; *at += 1) {
        if (*at == length)
            return CUT_SHORT;
        if (*at % 2 ? (uint32_t)r[*at] - 5 > 5 : r[*at] > HOST)
            return WRONG_FIELD;
    }
    return 0;
}

/* What a sample's body is answered. */
static inline uint8_t step_again(struct peer_board *row, size_t boards, const uint8_t *body, size_t bytes, adomvik_sampled *out)
{
    if (body[0] - 1u >= boards)
        return 2;
    uint32_t cells[NOTED_CELLS_MAX];
    const size_t count = (bytes - SAMPLE_HEAD) / 2;
    for (size_t i = 0; i < count; i++)
        cells[i] = get2(body + SAMPLE_HEAD + 2 * i);
    const adomvik_readings x = {get4(body + 1), (int32_t)get4(body + 8), get2(body + 6), body[5]};
    return step(&row[body[0] - 1], x, cells, count, out);
}

/* Whether the act at p is answered as it is recorded. */
static inline bool answered_so(struct peer_board *row, size_t boards, const uint8_t *p)
{
    const size_t body = p[1];
    const uint8_t *recorded = p + 2 + body;
    if (p[0] == NOTED_SAMPLE) {
        adomvik_sampled out;
        const uint8_t number = step_again(row, boards, p + 2, body, &out);
        return recorded[0] == number && (number || (recorded[1] == out.status && get2(recorded + 2) == out.bled));
    }
    if (p[0] == NOTED_FRAME) {
        uint8_t reply[4];
        const uint8_t number = obey(row, boards, p + 2, body, reply, sizeof reply);
        return recorded[0] == number && (number || get4(recorded + 1) == get4(reply));
    }
    adomvik_reading out;
    gather(row, boards, &out);
    return recorded[0] == 0 && memcmp(recorded + 1, &out, sizeof out) == 0;
}

adomvik_checked peer_check(struct peer_board *row, size_t boards, const uint8_t *recording, size_t length)
{
    size_t at = 0;
    uint8_t number = read_boards(recording, length, &at);
    if (number)
        return told(at, number);
    const size_t first = at, count = get2(recording + 2);
    const uint32_t acts = get4(recording + ACTS_AT);
    number = read_acts(recording, length, &at, acts);
    if (number)
        return told(at, number);
    if (boards < count)
        return told(count, 1);
    for (size_t i = 0; i < count; i++)
        start(&row[i], (uint32_t)recording[HEADER + 2 * i] << 8 | recording[HEADER + 2 * i + 1]);
    const uint8_t *p = recording + first;
    for (uint32_t place = 1; place <= acts; place++) {
        if (!answered_so(row, count, p))
            return told(place, 0);
        const size_t rest = rest_of(p[0]);
        p += 2u + p[1];
        p += *p ? 1 : 1 + rest;
    }
    return told(0, 0);
}
