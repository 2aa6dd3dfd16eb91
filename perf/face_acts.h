/* The acts that are measured, each of the library and of its peer, and the order in which they are: for perf/face.c, which
 * times them on this machine, and perf/bare.c, which counts instructions on a board.
 */
#ifndef FACE_ACTS_H
#define FACE_ACTS_H

#include "adomvik.h"
#include "face_peer.h"

enum { BOARDS = 16, CELLS = 10, GARDEN_CELLS = 5, KINDS = 8, LIST_WORDS = 3 * ADOMVIK_JOURNAL_MAX, TAPE = 4096 };

typedef void act(int i);

/* What the program that measures has: an act of the library and of the peer under a name, and a way to stop. */
static void measure(const char *of, const char *what, act *one, act *other);
static void fail(const char *what);

static adomvik_board ours[BOARDS];
static struct peer_board theirs[BOARDS];
static size_t boards; /* 1 or 16 while acts are measured */

static unsigned check(unsigned a, unsigned b, unsigned c)
{
    const unsigned bytes[3] = {a, b, c};
    unsigned crc = 0;
    for (int i = 0; i < 3; i++) {
        crc ^= bytes[i];
        for (int k = 0; k < 8; k++)
            crc = (crc & 128 ? crc << 1 ^ 7 : crc << 1) & 255;
    }
    return crc;
}

/* A row of so many boards by the same plan; both switches of host boards may be on, and OV of garden boards has let go. */
static void open_both(size_t count, adomvik_plan plan)
{
    adomvik_plan plans[BOARDS];
    boards = count;
    for (size_t i = 0; i < count; i++)
        plans[i] = plan;
    if (adomvik_open_plans(ours, count, plans, count) || peer_open_plans(theirs, count, plans, count))
        fail("an opening was refused");
    for (size_t i = 0; i < count; i++) {
        ours[i].control = theirs[i].control = ADOMVIK_CONTROL_DSG | ADOMVIK_CONTROL_CHG;
        ours[i].latches = theirs[i].latches = 0;
    }
}

/* ---- the acts */

static uint32_t mv[KINDS][CELLS];
static adomvik_readings readings;
static uint8_t frames[KINDS][4];
static adomvik_sampled sampled;
static adomvik_reading whole;
static adomvik_line line;
static uint8_t reply[4];
static unsigned sum;

static void ours_one(int i) { sum += adomvik_sample_board(&ours[0], readings, mv[i % KINDS], CELLS, &sampled); }
static void theirs_one(int i) { sum += peer_sample_board(&theirs[0], readings, mv[i % KINDS], CELLS, &sampled); }
static void ours_row(int i) { sum += adomvik_sample(ours, boards, (uint32_t)(i & (int)(boards - 1)) + 1, readings, mv[i % KINDS], CELLS, &sampled); }
static void theirs_row(int i) { sum += peer_sample(theirs, boards, (uint32_t)(i & (int)(boards - 1)) + 1, readings, mv[i % KINDS], CELLS, &sampled); }

/* a fault that comes and goes, SCD by the shunt or UV by two cells: every other sample of a board latches it, is tallied and entered
 * in a journal that is full soon; the others let it go. The first board's tallies go back at each round, since they would stop where
 * that board has all the samples */
static uint32_t low[KINDS][CELLS];
static adomvik_readings trip_readings[2]; /* off and on, here and below */
static const uint32_t (*trip_cells[2])[CELLS];

static void ours_trip(int i)
{
    const int on = (i & (int)boards) != 0;
    if (i == 0)
        ours[0].tallies.scd = ours[0].tallies.uv = 0;
    sum += adomvik_sample_board(&ours[0], trip_readings[on], trip_cells[on][i % KINDS], CELLS, &sampled);
}

static void theirs_trip(int i)
{
    const int on = (i & (int)boards) != 0;
    if (i == 0)
        theirs[0].tallies[0] = theirs[0].tallies[3] = 0;
    sum += peer_sample_board(&theirs[0], trip_readings[on], trip_cells[on][i % KINDS], CELLS, &sampled);
}

static void ours_trip_row(int i)
{
    const int on = (i & (int)boards) != 0;
    if (i == 0)
        ours[0].tallies.scd = ours[0].tallies.uv = 0;
    sum += adomvik_sample(ours, boards, (uint32_t)(i & (int)(boards - 1)) + 1, trip_readings[on], trip_cells[on][i % KINDS], CELLS, &sampled);
}

static void theirs_trip_row(int i)
{
    const int on = (i & (int)boards) != 0;
    if (i == 0)
        theirs[0].tallies[0] = theirs[0].tallies[3] = 0;
    sum += peer_sample(theirs, boards, (uint32_t)(i & (int)(boards - 1)) + 1, trip_readings[on], trip_cells[on][i % KINDS], CELLS, &sampled);
}

/* of garden boards: one sample goes to every board before the next does, so that counts go up and down again and nothing latches */
static void ours_garden(int i) { sum += adomvik_sample_board(&ours[0], readings, mv[i / BOARDS % KINDS], GARDEN_CELLS, &sampled); }
static void theirs_garden(int i) { sum += peer_sample_board(&theirs[0], readings, mv[i / BOARDS % KINDS], GARDEN_CELLS, &sampled); }
static void ours_garden_row(int i) { sum += adomvik_sample(ours, boards, (uint32_t)(i & (int)(boards - 1)) + 1, readings, mv[i / BOARDS % KINDS], GARDEN_CELLS, &sampled); }
static void theirs_garden_row(int i) { sum += peer_sample(theirs, boards, (uint32_t)(i & (int)(boards - 1)) + 1, readings, mv[i / BOARDS % KINDS], GARDEN_CELLS, &sampled); }

static void ours_frame(int i) { sum += adomvik_frame(ours, boards, frames[i % KINDS], 4, reply, 4); }
static void theirs_frame(int i) { sum += peer_frame(theirs, boards, frames[i % KINDS], 4, reply, 4); }
static void ours_read(int i) { (void)i; sum += adomvik_read(ours, boards, &whole); }
static void theirs_read(int i) { (void)i; sum += peer_read(theirs, boards, &whole); }

static void ours_up(int i) { (void)i; sum += adomvik_up(ours, boards, &line); }
static void theirs_up(int i) { (void)i; sum += peer_up(theirs, boards, &line); }

/* of a listing only a refusal is more than 255 */
static uint32_t entries[LIST_WORDS];

static void ours_list(int i) { sum += adomvik_list(ours, boards, (uint32_t)(i & (int)(boards - 1)) + 1, entries, LIST_WORDS) >> 8; }
static void theirs_list(int i) { sum += peer_list(theirs, boards, (uint32_t)(i & (int)(boards - 1)) + 1, entries, LIST_WORDS) >> 8; }

/* a recording of acts that need never have been made, over again where the memory is nearly full */
static uint8_t our_memory[TAPE], their_memory[TAPE];
static adomvik_recorder our_recorder, their_recorder, begun;

static adomvik_recorder with_room(adomvik_recorder recorder) { return recorder.used > TAPE - 64 ? begun : recorder; }

static void ours_note_sample(int i)
{
    our_recorder = adomvik_note_sample(with_room(our_recorder), our_memory, TAPE, 1, readings, mv[i % KINDS], CELLS, 0, ADOMVIK_CHG_ON | ADOMVIK_DSG_ON, (uint16_t)i);
    sum += our_recorder.verdict;
}

static void theirs_note_sample(int i)
{
    their_recorder = peer_note_sample(with_room(their_recorder), their_memory, TAPE, 1, readings, mv[i % KINDS], CELLS, 0, ADOMVIK_CHG_ON | ADOMVIK_DSG_ON, (uint16_t)i);
    sum += their_recorder.verdict;
}

static void ours_note_frame(int i)
{
    our_recorder = adomvik_note_frame(with_room(our_recorder), our_memory, TAPE, frames[i % KINDS], 4, reply, 4, 0);
    sum += our_recorder.verdict;
}

static void theirs_note_frame(int i)
{
    their_recorder = peer_note_frame(with_room(their_recorder), their_memory, TAPE, frames[i % KINDS], 4, reply, 4, 0);
    sum += their_recorder.verdict;
}

static void ours_note_reading(int i)
{
    our_recorder = adomvik_note_reading(with_room(our_recorder), our_memory, TAPE, 0, 1, 0, 1, (uint8_t)i, 3);
    sum += our_recorder.verdict;
}

static void theirs_note_reading(int i)
{
    their_recorder = peer_note_reading(with_room(their_recorder), their_memory, TAPE, 0, 1, 0, 1, (uint8_t)i, 3);
    sum += their_recorder.verdict;
}

/* a recording of so many acts, checked at one call of so many, so that a call takes what an act of it does; where not every answer is
 * right the sum is not 0 */
enum { CHECKED = 32 };

static const uint8_t *checked;
static size_t checked_bytes;

static void ours_check(int i)
{
    if (i % CHECKED)
        return;
    const adomvik_checked told = adomvik_check(ours, BOARDS, checked, checked_bytes);
    sum += told.number + told.place;
}

static void theirs_check(int i)
{
    if (i % CHECKED)
        return;
    const adomvik_checked told = peer_check(theirs, BOARDS, checked, checked_bytes);
    sum += told.number + told.place;
}

/* a cycle spent at each call: the count goes back, and the staged byte is another than the working one */
static size_t addressed(int i) { return frames[i % KINDS][0] / 2 - 1u; }

static void ours_spend(int i)
{
    adomvik_board *b = &ours[addressed(i)];
    b->cycles = 0;
    b->staged.r6 = (uint8_t)i;
    b->working.r6 = (uint8_t)(i + 1);
    ours_frame(i);
}

static void theirs_spend(int i)
{
    struct peer_board *b = &theirs[addressed(i)];
    b->cycles = 0;
    b->staged[0] = (uint8_t)i;
    b->working[0] = (uint8_t)(i + 1);
    theirs_frame(i);
}

/* all four faults cleared at each call: the bit is set and the faults latched before */
static void ours_clear(int i)
{
    adomvik_board *b = &ours[addressed(i)];
    b->control = ADOMVIK_CONTROL_CLEAR;
    b->latches = ADOMVIK_SCD | ADOMVIK_OCD | ADOMVIK_OV | ADOMVIK_UV;
    ours_frame(i);
}

static void theirs_clear(int i)
{
    struct peer_board *b = &theirs[addressed(i)];
    b->control = ADOMVIK_CONTROL_CLEAR;
    b->latches = ADOMVIK_SCD | ADOMVIK_OCD | ADOMVIK_OV | ADOMVIK_UV;
    theirs_frame(i);
}

/* Samples with so many cells and currents at fault, of ten cells; which ones goes round. */
static void set_samples(int faults)
{
    for (int k = 0; k < KINDS; k++)
        for (int i = 0; i < CELLS; i++)
            mv[k][i] = (uint32_t)((i + 7 * k) % CELLS < faults ? (k % 2 ? 4300 : 4200) : 3900 + k);
    readings = (adomvik_readings){.elapsed = 1000, .shunt = faults == CELLS ? 90000 : faults ? 20000 : 0, .thermistor = 2000, .load = faults > 0};
}

/* Samples with so many of a garden board's cells past a level, over and under it in turn. */
static void set_garden_samples(int faults)
{
    for (int k = 0; k < KINDS; k++)
        for (int i = 0; i < GARDEN_CELLS; i++)
            mv[k][i] = (uint32_t)((i + 7 * k) % GARDEN_CELLS < faults ? (k % 2 ? 4300 : 2000) : 3900 + k);
    readings = (adomvik_readings){.elapsed = 1000, .thermistor = 2000, .load = faults > 0};
}

static void set_frames(uint8_t address, uint8_t reg, uint8_t value)
{
    for (int k = 0; k < KINDS; k++) {
        const uint8_t to = (uint8_t)(address + 2 * (k & (int)(boards - 1)));
        frames[k][0] = to;
        frames[k][1] = reg;
        frames[k][2] = value;
        frames[k][3] = (uint8_t)check(to, reg, value);
    }
}

static adomvik_plan plan_of(int kind)
{
    if (kind == ADOMVIK_GARDEN)
        return adomvik_garden(GARDEN_CELLS, ADOMVIK_BQ7791500, ADOMVIK_TRIGGER_MAX);
    return kind == ADOMVIK_HOST ? adomvik_host(CELLS) : adomvik_stand_alone(CELLS);
}

static void samples(void)
{
    static const struct { const char *name; int kind, faults; } how[] = {
        {"quiet", ADOMVIK_STAND_ALONE, 0},
        {"quiet host", ADOMVIK_HOST, 0},
        {"a third faulting", ADOMVIK_STAND_ALONE, 3},
        {"all faulting", ADOMVIK_STAND_ALONE, CELLS},
        {"all faulting, host", ADOMVIK_HOST, CELLS},
    };
    for (size_t k = 0; k < sizeof how / sizeof *how; k++) {
        const adomvik_plan plan = plan_of(how[k].kind);
        set_samples(how[k].faults);
        open_both(1, plan);
        measure("sample of one record, ", how[k].name, ours_one, theirs_one);
        measure("sample in a row of 1, ", how[k].name, ours_row, theirs_row);
        open_both(BOARDS, plan);
        measure("sample in a row of 16, ", how[k].name, ours_row, theirs_row);
    }
}

/* Quiet samples in turn with others: a short circuit, or two cells that read low; which ones goes round. */
static void set_trips(int shunt, int lows)
{
    set_samples(0);
    for (int k = 0; k < KINDS; k++)
        for (int i = 0; i < CELLS; i++)
            low[k][i] = (i + 7 * k) % CELLS < lows ? 1300 : mv[k][i];
    trip_readings[0] = trip_readings[1] = readings;
    trip_readings[1].shunt = shunt;
    trip_cells[0] = (const uint32_t (*)[CELLS])mv;
    trip_cells[1] = (const uint32_t (*)[CELLS])low;
}

static void trips(void)
{
    static const struct { const char *name; int shunt, lows; } how[] = {
        {"SCD on and off", 90000, 0},
        {"UV on and off", 0, 2},
    };
    const adomvik_plan plan = plan_of(ADOMVIK_STAND_ALONE);
    for (size_t k = 0; k < sizeof how / sizeof *how; k++) {
        set_trips(how[k].shunt, how[k].lows);
        open_both(1, plan);
        measure("sample of one record, ", how[k].name, ours_trip, theirs_trip);
        measure("sample in a row of 1, ", how[k].name, ours_trip_row, theirs_trip_row);
        open_both(BOARDS, plan);
        measure("sample in a row of 16, ", how[k].name, ours_trip_row, theirs_trip_row);
    }
}

static void garden_samples(void)
{
    static const struct { const char *name; int faults; } how[] = {
        {"quiet garden", 0},
        {"two faulting, garden", 2},
        {"all faulting, garden", GARDEN_CELLS},
    };
    const adomvik_plan plan = plan_of(ADOMVIK_GARDEN);
    for (size_t k = 0; k < sizeof how / sizeof *how; k++) {
        set_garden_samples(how[k].faults);
        open_both(1, plan);
        measure("sample of one record, ", how[k].name, ours_garden, theirs_garden);
        measure("sample in a row of 1, ", how[k].name, ours_garden_row, theirs_garden_row);
        open_both(BOARDS, plan);
        measure("sample in a row of 16, ", how[k].name, ours_garden_row, theirs_garden_row);
    }
}

static void frames_in(size_t count, const char *row)
{
    static const struct { const char *name; int kind; uint8_t address, reg, value; act *one, *other; } acts[] = {
        {"a read", ADOMVIK_STAND_ALONE, 2, 0, 0, ours_frame, theirs_frame},
        {"a read of a tally", ADOMVIK_STAND_ALONE, 2, 24, 0, ours_frame, theirs_frame},
        {"a staging write", ADOMVIK_STAND_ALONE, 3, 9, 0x25, ours_frame, theirs_frame},
        {"programming equal", ADOMVIK_STAND_ALONE, 3, 11, 0x41, ours_frame, theirs_frame},
        {"programming that spends", ADOMVIK_STAND_ALONE, 3, 11, 0x41, ours_spend, theirs_spend},
        {"a write to register 1", ADOMVIK_HOST, 3, 1, 6, ours_frame, theirs_frame},
        {"a write that clears", ADOMVIK_HOST, 3, 1, 6, ours_clear, theirs_clear},
    };
    set_samples(0);
    for (size_t k = 0; k < sizeof acts / sizeof *acts; k++) {
        open_both(count, plan_of(acts[k].kind));
        /* a last sample that every fault is over on */
        for (int i = 0; i < (int)count; i++) {
            ours_row(i);
            theirs_row(i);
        }
        set_frames(acts[k].address, acts[k].reg, acts[k].value);
        measure(row, acts[k].name, acts[k].one, acts[k].other);
    }
}

static void readings_of_16(void)
{
    open_both(BOARDS, plan_of(ADOMVIK_STAND_ALONE));
    measure("reading of 16, ", "quiet", ours_read, theirs_read);
    set_samples(CELLS);
    readings.elapsed = 100000;
    for (int i = 0; i < 20 * BOARDS; i++) {
        ours_row(i);
        theirs_row(i);
    }
    measure("reading of 16, ", "with latches", ours_read, theirs_read);
    open_both(BOARDS, plan_of(ADOMVIK_HOST));
    measure("reading of 16, ", "quiet hosts", ours_read, theirs_read);
    open_both(BOARDS, plan_of(ADOMVIK_GARDEN));
    measure("reading of 16, ", "quiet gardens", ours_read, theirs_read);
}

/* The question goes over the whole row for a bad board, and for a latch only to the first one. */
static void fault_lines(void)
{
    const adomvik_plan plan = plan_of(ADOMVIK_STAND_ALONE);
    open_both(1, plan);
    measure("fault line of a row of 1, ", "none up", ours_up, theirs_up);
    open_both(BOARDS, plan);
    measure("fault line of a row of 16, ", "none up", ours_up, theirs_up);
    ours[0].latches = theirs[0].latches = ADOMVIK_SCD;
    measure("fault line of a row of 16, ", "board 1 up", ours_up, theirs_up);
}

/* So many samples of each board, every other of which latches. */
static void trip_all(int times)
{
    set_trips(90000, 0);
    for (int i = 0; i < times * (int)boards; i++) {
        ours_trip_row(i);
        theirs_trip_row(i);
    }
}

/* Listings of boards that have latched nothing, and of boards with more latchings than a journal keeps. */
static void listings_in(size_t count, const char *row)
{
    open_both(count, plan_of(ADOMVIK_STAND_ALONE));
    measure(row, "empty", ours_list, theirs_list);
    trip_all(300);
    measure(row, "full", ours_list, theirs_list);
}

/* A recording of 16 boards, begun. */
static void begin_both(void)
{
    adomvik_plan plans[BOARDS];
    for (size_t i = 0; i < BOARDS; i++)
        plans[i] = plan_of(ADOMVIK_HOST);
    begun = our_recorder = adomvik_begin(our_memory, TAPE, plans, BOARDS);
    their_recorder = peer_begin(their_memory, TAPE, plans, BOARDS);
    if (our_recorder.verdict || their_recorder.verdict)
        fail("a recording was refused");
}

static void notes(void)
{
    begin_both();
    set_samples(0);
    set_frames(2, 0, 0);
    measure("recording ", "a sample of ten cells", ours_note_sample, theirs_note_sample);
    measure("recording ", "a frame", ours_note_frame, theirs_note_frame);
    measure("recording ", "a reading", ours_note_reading, theirs_note_reading);
}

/* ---- recordings of acts that were made */

enum { RECORD_SAMPLES = 1, RECORD_FRAMES = 2, RECORD_READINGS = 4, RECORD_MIXED = 7 };

static const struct { const char *name; unsigned kinds; } recorded_days[] = {
    {"samples", RECORD_SAMPLES},
    {"frames", RECORD_FRAMES},
    {"readings", RECORD_READINGS},
    {"mixed", RECORD_MIXED},
};

enum { RECORDED_DAYS = sizeof recorded_days / sizeof *recorded_days };

/* Begins a day of so many boards, stand-alone ones and hosts in turn. */
static void begin_day(size_t count)
{
    adomvik_plan plans[BOARDS];
    boards = count;
    for (size_t i = 0; i < count; i++)
        plans[i] = plan_of(i % 2 ? ADOMVIK_HOST : ADOMVIK_STAND_ALONE);
    begun = our_recorder = adomvik_begin(our_memory, TAPE, plans, count);
    if (our_recorder.verdict || adomvik_open_plans(ours, count, plans, count))
        fail("a day was refused");
    set_samples(0);
    set_frames(2, 0, 0);
}

/* The act of a day that comes at this place, made and noted. A mixed one has two samples to a frame and a reading. */
static void live(int i, unsigned kinds)
{
    const unsigned kind = kinds != RECORD_MIXED ? kinds : i % 4 < 2 ? RECORD_SAMPLES : i % 4 == 2 ? RECORD_FRAMES : RECORD_READINGS;
    if (kind == RECORD_SAMPLES) {
        const uint32_t board = (uint32_t)(i & (int)(boards - 1)) + 1;
        const uint8_t number = adomvik_sample(ours, boards, board, readings, mv[i % KINDS], CELLS, &sampled);
        our_recorder = adomvik_note_sample(our_recorder, our_memory, TAPE, board, readings, mv[i % KINDS], CELLS, number, sampled.status, sampled.bled);
    } else if (kind == RECORD_FRAMES) {
        const uint8_t number = adomvik_frame(ours, boards, frames[i % KINDS], 4, reply, 4);
        our_recorder = adomvik_note_frame(our_recorder, our_memory, TAPE, frames[i % KINDS], 4, reply, 4, number);
    } else {
        const uint8_t number = adomvik_read(ours, boards, &whole);
        our_recorder = adomvik_note_reading(our_recorder, our_memory, TAPE, number, whole.line, whole.chg, whole.dsg, whole.board, whole.cell);
    }
    if (our_recorder.verdict)
        fail("an act of a day was not recorded");
}

static void record_few(size_t count, unsigned kinds)
{
    begin_day(count);
    for (int i = 0; i < CHECKED; i++)
        live(i, kinds);
    checked = our_memory;
    checked_bytes = our_recorder.used;
}

/* What each act of a short recording takes, the opening of its boards with it: on a row of 16 that is the larger part. */
static void checks_in(size_t count, const char *row)
{
    for (size_t k = 0; k < RECORDED_DAYS; k++) {
        record_few(count, recorded_days[k].kinds);
        measure(row, recorded_days[k].name, ours_check, theirs_check);
    }
}

static void all_acts(void)
{
    samples();
    trips();
    garden_samples();
    frames_in(1, "frame in a row of 1, ");
    frames_in(BOARDS, "frame in a row of 16, ");
    readings_of_16();
    fault_lines();
    listings_in(1, "listing in a row of 1, ");
    listings_in(BOARDS, "listing in a row of 16, ");
    notes();
    checks_in(1, "checking 32 acts in a row of 1, ");
    checks_in(BOARDS, "checking 32 acts in a row of 16, ");
}

/* ---- bytes of stack, by what the program that measures has for one act */

static size_t depth(act *one);
static void tell(const char *of, size_t one, size_t other);

static void nothing(int i) { sum += (unsigned)i; }

static void all_stacks(void)
{
    open_both(BOARDS, plan_of(ADOMVIK_STAND_ALONE));
    set_samples(3);
    set_frames(3, 9, 0x25);
    const size_t base = depth(nothing);
    tell("stack of a sample", depth(ours_row) - base, depth(theirs_row) - base);
    tell("stack of a frame", depth(ours_frame) - base, depth(theirs_frame) - base);
    tell("stack of a reading", depth(ours_read) - base, depth(theirs_read) - base);
    tell("stack of a fault line", depth(ours_up) - base, depth(theirs_up) - base);
    trip_all(300);
    tell("stack of a listing", depth(ours_list) - base, depth(theirs_list) - base);
    open_both(BOARDS, plan_of(ADOMVIK_GARDEN));
    set_garden_samples(GARDEN_CELLS);
    tell("stack of a sample, garden", depth(ours_garden_row) - base, depth(theirs_garden_row) - base);
    begin_both();
    tell("stack of recording a sample", depth(ours_note_sample) - base, depth(theirs_note_sample) - base);
    record_few(BOARDS, RECORD_MIXED);
    tell("stack of a check", depth(ours_check) - base, depth(theirs_check) - base);
}

#endif
