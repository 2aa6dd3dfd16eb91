/* Times the C library against its peer, act by act, after both have answered the same random acts alike.
 * Output, a line for each act: its name, and the best nanoseconds of the library and of the peer. Then bytes of stack. Of a check the
 * nanoseconds are those of each act in the recording.
 */
#include <stdbool.h>
#include <stdio.h>
#include <stdlib.h>
#include <string.h>
#include <time.h>
#include <ucontext.h>

#include "face_acts.h"

enum { CALLS = 4000, ROUNDS = 250, TRIALS = 400000, STACK = 1 << 16 };

/* Of long recordings: acts, bytes of the longest, and rounds. */
enum { MILLION = 1000000, ACT_MOST = 48, LONG_ROUNDS = 7 };

static void fail(const char *what)
{
    printf("face: %s\n", what);
    exit(1);
}

/* ---- the same answers */

static unsigned random_below(unsigned n)
{
    static uint64_t state = 88172645463325252u;
    state ^= state << 13;
    state ^= state >> 7;
    state ^= state << 17;
    return (unsigned)(state % n);
}

static void same_sample(void)
{
    static const uint32_t levels[] = {4000, 4151, 4051, 4049, 1399, 1601, 1599, 5000, 3000, 4600, 0};
    /* past and inside the levels of each row of the device table, and just not */
    static const uint32_t garden_levels[] = {4201, 4200, 3999, 4000, 2899, 2900, 3301, 3300, 4251, 4049, 2799, 3201, 4276, 4174, 1999, 2201, 3600};
    const uint32_t place = random_below(boards);
    const bool garden = theirs[place].kind == ADOMVIK_GARDEN;
    const uint32_t *from = garden ? garden_levels : levels;
    const unsigned marks = garden ? sizeof garden_levels / sizeof *garden_levels : sizeof levels / sizeof *levels;
    uint32_t mv[CELLS + 1];
    const uint32_t usual = from[random_below(marks)];
    for (int i = 0; i <= CELLS; i++)
        mv[i] = random_below(4) ? usual : from[random_below(marks)];
    if (random_below(50) == 0)
        mv[2] = 5001;
    const size_t count = random_below(60) ? theirs[place].cells : random_below(CELLS + 2);
    adomvik_readings x = {random_below(20) ? 100000 : random_below(100003), (int32_t)random_below(200000) - 60000, random_below(9) ? 2000 : random_below(5003), random_below(40) ? random_below(2) : 2};
    if (random_below(3) == 0)
        x.shunt = 0;
    adomvik_sampled a = {7, 7}, b = {7, 7};
    unsigned one, other;
    if (random_below(2)) {
        const uint32_t number = random_below(20) ? place + 1 : random_below(boards + 2);
        one = adomvik_sample(ours, boards, number, x, mv, count, &a);
        other = peer_sample(theirs, boards, number, x, mv, count, &b);
    } else {
        one = adomvik_sample_board(&ours[place], x, mv, count, &a);
        other = peer_sample_board(&theirs[place], x, mv, count, &b);
    }
    if (one != other || a.status != b.status || a.bled != b.bled)
        fail("a sample is answered otherwise by the peer");
}

/* The value of a write: mostly one that the register takes. */
static unsigned value_for(unsigned reg)
{
    return reg == 11 ? 0x41 : random_below(reg == 1 ? 9 : 70);
}

static void same_frame(void)
{
    static const uint8_t registers[] = {0, 1, 1, 1, 6, 7, 8, 9, 10, 11, 11, 5, 12, 15, 16, 17, 18, 19, 20, 21, 23, 24, 25, 26, 27, 28, 29};
    uint8_t frame[4], reply[2][4] = {{1, 2, 3, 4}, {1, 2, 3, 4}};
    frame[0] = (uint8_t)random_below(2 * boards + 4);
    frame[1] = registers[random_below(sizeof registers)];
    frame[2] = (uint8_t)(frame[0] % 2 == 0 ? random_below(8) == 0 : value_for(frame[1]));
    frame[3] = (uint8_t)(check(frame[0], frame[1], frame[2]) ^ (random_below(30) == 0));
    const size_t length = random_below(30) ? 4 : 3, room = random_below(30) ? 4 : 3;
    const unsigned one = adomvik_frame(ours, boards, frame, length, reply[0], room), other = peer_frame(theirs, boards, frame, length, reply[1], room);
    if (one != other || memcmp(reply[0], reply[1], 4) != 0)
        fail("a frame is answered otherwise by the peer");
}

static void same_reading(void)
{
    adomvik_reading a, b;
    if (adomvik_read(ours, boards, &a) || peer_read(theirs, boards, &b) || memcmp(&a, &b, sizeof a) != 0)
        fail("a reading is answered otherwise by the peer");
}

static void same_line(void)
{
    adomvik_line a, b;
    if (adomvik_up(ours, boards, &a) || peer_up(theirs, boards, &b) || memcmp(&a, &b, sizeof a) != 0)
        fail("a fault line is answered otherwise by the peer");
}

/* With room for the listing, for more, or for less, in words. */
static void same_listing(void)
{
    const uint32_t number = random_below(20) ? 1 + random_below(boards) : random_below(boards + 2);
    const size_t many = random_below(4) ? LIST_WORDS : random_below(LIST_WORDS);
    uint32_t one[LIST_WORDS], other[LIST_WORDS];
    memset(one, 0xa5, sizeof one);
    memset(other, 0xa5, sizeof other);
    const uint32_t a = adomvik_list(ours, boards, number, one, many), b = peer_list(theirs, boards, number, other, many);
    if (a != b || memcmp(one, other, sizeof one) != 0)
        fail("a listing is answered otherwise by the peer");
}

/* Mostly one from the lowest up, now and then one that no board can have. */
static uint32_t usually(uint32_t lowest, uint32_t count)
{
    return random_below(100) ? lowest + random_below(count) : random_below(600);
}

static adomvik_plan plan_with(uint32_t cells)
{
    switch (random_below(3)) {
    case ADOMVIK_STAND_ALONE: return adomvik_stand_alone(cells);
    case ADOMVIK_HOST: return adomvik_host(cells);
    default: return adomvik_garden(usually(3, 3), usually(0, 3), usually(1, random_below(2) ? 4 : 255));
    }
}

/* Tallies that a few latchings take to their stop, and a number of samples close to its top. */
static void near_the_stop(void)
{
    for (size_t i = 0; i < boards; i++) {
        ours[i].samples = theirs[i].samples = UINT32_MAX - random_below(40);
        const uint16_t near = (uint16_t)(UINT16_MAX - random_below(4));
        ours[i].tallies = (adomvik_tallies){near, near, near, near, near};
        for (int k = 0; k < 5; k++)
            theirs[i].tallies[k] = near;
    }
}

/* Openings by counts and by plans, of every kind. */
static void same_opening(void)
{
    uint32_t counts[BOARDS];
    adomvik_plan plans[BOARDS];
    boards = 1 + random_below(BOARDS);
    for (size_t i = 0; i < boards; i++) {
        counts[i] = usually(CELLS, 1);
        plans[i] = plan_with(counts[i]);
    }
    const bool planned = random_below(4);
    const unsigned one = planned ? adomvik_open_plans(ours, boards, plans, boards) : adomvik_open(ours, boards, counts, boards);
    const unsigned other = planned ? peer_open_plans(theirs, boards, plans, boards) : peer_open(theirs, boards, counts, boards);
    if (one != other)
        fail("an opening is answered otherwise by the peer");
    if (one)
        open_both(boards, adomvik_host(CELLS));
    if (random_below(2))
        near_the_stop();
}

/* ---- the same recordings: in memory of any length up to this */

enum { MEMORY = 600 };

static uint8_t one_memory[MEMORY], other_memory[MEMORY];
static size_t length;

static void same_recorder(adomvik_recorder a, adomvik_recorder b)
{
    if (a.used != b.used || a.acts != b.acts || a.stopped != b.stopped || a.verdict != b.verdict || memcmp(one_memory, other_memory, MEMORY) != 0)
        fail("a recorder is answered otherwise by the peer");
    our_recorder = a;
}

static void same_beginning(void)
{
    adomvik_plan plans[BOARDS + 1];
    const size_t count = random_below(8) ? 1 + random_below(3) : random_below(BOARDS + 2);
    for (size_t i = 0; i < count; i++)
        plans[i] = random_below(20) ? adomvik_host(usually(5, 6)) : plan_with(usually(5, 6));
    length = random_below(8) ? MEMORY - random_below(40) : random_below(60);
    same_recorder(adomvik_begin(one_memory, length, plans, count), peer_begin(other_memory, length, plans, count));
}

/* Mostly what a field of a recording has room for. */
static uint32_t fits(uint32_t below)
{
    return random_below(40) ? random_below(below) : below + random_below(2);
}

static void same_noted_sample(void)
{
    uint32_t mv[124];
    const size_t count = random_below(10) ? CELLS : 119 + random_below(5);
    for (size_t i = 0; i < count; i++)
        mv[i] = random_below(400) ? random_below(65536) : fits(65536);
    const adomvik_readings x = {random_below(200000), (int32_t)random_below(1200000) - 600000, fits(65536), fits(256)};
    const uint32_t board = fits(256);
    const uint8_t number = (uint8_t)(random_below(3) ? 0 : random_below(256)), status = (uint8_t)random_below(256);
    const uint16_t bled = (uint16_t)random_below(65536);
    same_recorder(adomvik_note_sample(our_recorder, one_memory, length, board, x, mv, count, number, status, bled),
        peer_note_sample(our_recorder, other_memory, length, board, x, mv, count, number, status, bled));
}

static void same_noted_frame(void)
{
    uint8_t frame[257], reply[8];
    const size_t bytes = random_below(10) ? 4 : 254 + random_below(4), room = random_below(20) ? 4 : random_below(9);
    for (size_t i = 0; i < bytes; i++)
        frame[i] = (uint8_t)random_below(256);
    for (size_t i = 0; i < room; i++)
        reply[i] = (uint8_t)random_below(256);
    const uint8_t number = (uint8_t)(random_below(3) ? 0 : random_below(256));
    same_recorder(adomvik_note_frame(our_recorder, one_memory, length, frame, bytes, reply, room, number),
        peer_note_frame(our_recorder, other_memory, length, frame, bytes, reply, room, number));
}

static void same_noted_reading(void)
{
    uint8_t n[6];
    for (int i = 0; i < 6; i++)
        n[i] = (uint8_t)(i || random_below(3) == 0 ? random_below(256) : 0);
    same_recorder(adomvik_note_reading(our_recorder, one_memory, length, n[0], n[1], n[2], n[3], n[4], n[5]),
        peer_note_reading(our_recorder, other_memory, length, n[0], n[1], n[2], n[3], n[4], n[5]));
}

/* By the recorder that was returned last, but now and then by another. */
static void same_note(void)
{
    if (random_below(30) == 0)
        our_recorder = (adomvik_recorder){random_below(2 * MEMORY), (uint16_t)(random_below(2) ? 65535 - random_below(3) : random_below(600)),
            (uint8_t)(random_below(4) ? 0 : random_below(20)), 0};
    switch (random_below(8)) {
    case 0: same_beginning(); break;
    case 1: same_recorder(adomvik_note_other(our_recorder), peer_note_other(our_recorder)); break;
    case 2: same_noted_reading(); break;
    case 3: case 4: same_noted_frame(); break;
    default: same_noted_sample();
    }
}

/* ---- the same checks: of days of any acts, as they are and damaged */

enum { DAYS = 3000, DAY = 40 };

/* An act of a day on the library's row, noted; frames and samples that are refused among them. */
static void random_act(void)
{
    const uint32_t board = random_below(10) ? 1 + random_below(boards) : random_below(256);
    if (random_below(2)) {
        uint32_t cells[CELLS + 2];
        const size_t count = random_below(20) ? (board - 1 < boards ? ours[board - 1].count : 5) : random_below(CELLS + 2);
        for (size_t i = 0; i < count; i++)
            cells[i] = random_below(12) ? 3900 + random_below(260) : random_below(5010);
        const adomvik_readings x = {random_below(20) ? 100000 : random_below(100003), (int32_t)random_below(200000) - 100000, random_below(9) ? 2000 : random_below(5003), random_below(2)};
        const uint8_t number = adomvik_sample(ours, boards, board, x, cells, count, &sampled);
        our_recorder = adomvik_note_sample(our_recorder, our_memory, TAPE, board, x, cells, count, number, sampled.status, sampled.bled);
    } else if (random_below(4)) {
        uint8_t frame[5] = {(uint8_t)(2 * board + random_below(2)), (uint8_t)random_below(30), 0, 0, 0};
        frame[2] = (uint8_t)(frame[0] % 2 ? value_for(frame[1]) : 0);
        frame[3] = (uint8_t)(check(frame[0], frame[1], frame[2]) ^ (random_below(20) == 0));
        const size_t bytes = random_below(20) ? 4 : random_below(6);
        const uint8_t number = adomvik_frame(ours, boards, frame, bytes, reply, 4);
        our_recorder = adomvik_note_frame(our_recorder, our_memory, TAPE, frame, bytes, reply, 4, number);
    } else {
        const uint8_t number = adomvik_read(ours, boards, &whole);
        our_recorder = adomvik_note_reading(our_recorder, our_memory, TAPE, number, whole.line, whole.chg, whole.dsg, whole.board, whole.cell);
    }
}

/* Both tell the same of the first so many bytes, and leave stacks that read alike. */
static adomvik_checked same_check(size_t lent, size_t bytes)
{
    const adomvik_checked one = adomvik_check(ours, lent, our_memory, bytes), other = peer_check(theirs, lent, our_memory, bytes);
    if (one.number != other.number || one.place != other.place)
        fail("a recording is checked otherwise by the peer");
    adomvik_reading a, b;
    if (one.number == 0 && (adomvik_read(ours, boards, &a) || peer_read(theirs, boards, &b) || memcmp(&a, &b, sizeof a) != 0))
        fail("a check leaves another stack by the peer");
    return one;
}

static void same_checks(void)
{
    for (int day = 0; day < DAYS; day++) {
        adomvik_plan plans[BOARDS];
        boards = 1 + random_below(random_below(4) ? 3 : BOARDS);
        for (size_t i = 0; i < boards; i++)
            plans[i] = random_below(2) ? adomvik_host(5 + random_below(6)) : adomvik_stand_alone(5 + random_below(6));
        our_recorder = adomvik_begin(our_memory, TAPE, plans, boards);
        adomvik_open_plans(ours, boards, plans, boards);
        for (int i = 0; i < DAY; i++)
            random_act();
        const adomvik_checked right = same_check(BOARDS, our_recorder.used);
        if (right.number || right.place)
            fail("a day as it was recorded is not right");
        for (int i = 0; i < DAY; i++) {
            uint8_t *spoilt = &our_memory[random_below(random_below(3) ? our_recorder.used : 60)];
            const uint8_t was = *spoilt;
            *spoilt = (uint8_t)(random_below(2) ? random_below(20) : was ^ 1u << random_below(8));
            same_check(random_below(4) ? BOARDS : random_below(BOARDS), random_below(2) ? our_recorder.used : random_below(our_recorder.used + 1));
            *spoilt = was;
        }
    }
}

static void same_answers(void)
{
    same_checks();
    for (int i = 0; i < TRIALS; i++) {
        same_note();
        if (i % 1000 == 0)
            same_opening();
        const unsigned kind = random_below(10);
        if (kind < 7)
            same_sample();
        else if (kind < 9)
            same_frame();
        else if (random_below(2))
            same_reading();
        else if (random_below(2))
            same_line();
        else
            same_listing();
    }
}

/* ---- times */

static double nanoseconds(act *one)
{
    struct timespec from, to;
    clock_gettime(CLOCK_MONOTONIC, &from);
    for (int i = 0; i < CALLS; i++)
        one(i);
    clock_gettime(CLOCK_MONOTONIC, &to);
    return ((double)(to.tv_sec - from.tv_sec) * 1e9 + (double)(to.tv_nsec - from.tv_nsec)) / CALLS;
}

/* In turn, so that what else the machine does meets both alike; the best of many rounds. */
static void measure(const char *of, const char *what, act *one, act *other)
{
    double best[2] = {1e9, 1e9};
    sum = 0;
    for (int i = 0; i < ROUNDS; i++) {
        const double a = nanoseconds(one), b = nanoseconds(other);
        best[0] = a < best[0] ? a : best[0];
        best[1] = b < best[1] ? b : best[1];
    }
    if (sum)
        fail("an act was refused while it was timed");
    printf("%s%s: %.2f %.2f\n", of, what, best[0], best[1]);
}

/* ---- recordings of a million acts, nanoseconds of each act */

static double check_time(act *one)
{
    struct timespec from, to;
    clock_gettime(CLOCK_MONOTONIC, &from);
    one(0);
    clock_gettime(CLOCK_MONOTONIC, &to);
    return ((double)(to.tv_sec - from.tv_sec) * 1e9 + (double)(to.tv_nsec - from.tv_nsec)) / MILLION;
}

/* Each act is recorded by itself and put behind the others, since a recorder goes no further than 65,535 bytes. */
static void record_long(uint8_t *recording, size_t count, unsigned kinds)
{
    const uint32_t million = MILLION;
    begin_day(count);
    size_t at = begun.used;
    memcpy(recording, our_memory, at);
    memcpy(recording + 4, &million, sizeof million);
    for (int i = 0; i < MILLION; i++) {
        our_recorder = begun;
        live(i, kinds);
        memcpy(recording + at, our_memory + begun.used, our_recorder.used - begun.used);
        at += our_recorder.used - begun.used;
    }
    checked = recording;
    checked_bytes = at;
}

static void long_checks_in(uint8_t *recording, size_t count, const char *row)
{
    for (size_t k = 0; k < RECORDED_DAYS; k++) {
        double best[2] = {1e9, 1e9};
        record_long(recording, count, recorded_days[k].kinds);
        sum = 0;
        for (int i = 0; i < LONG_ROUNDS; i++) {
            const double a = check_time(ours_check), b = check_time(theirs_check);
            best[0] = a < best[0] ? a : best[0];
            best[1] = b < best[1] ? b : best[1];
        }
        if (sum)
            fail("a long recording is not right");
        printf("%s%s: %.2f %.2f\n", row, recorded_days[k].name, best[0], best[1]);
    }
}

static void long_checks(void)
{
    uint8_t *recording = malloc((size_t)MILLION * ACT_MOST + TAPE);
    if (!recording)
        fail("there is no memory for a recording of a million acts");
    long_checks_in(recording, 1, "checking a million in a row of 1, ");
    long_checks_in(recording, BOARDS, "checking a million in a row of 16, ");
    free(recording);
}

/* ---- bytes of stack: an act on a painted stack of its own */

static unsigned char painted[STACK];
static ucontext_t home, away;
static act *acting;

static void on_stack(void)
{
    acting(0);
}

static size_t depth(act *one)
{
    memset(painted, 0x5a, STACK);
    getcontext(&away);
    away.uc_stack.ss_sp = painted;
    away.uc_stack.ss_size = STACK;
    away.uc_link = &home;
    acting = one;
    makecontext(&away, on_stack, 0);
    swapcontext(&home, &away);
    size_t untouched = 0;
    while (untouched < STACK && painted[untouched] == 0x5a)
        untouched++;
    return STACK - untouched;
}

static void tell(const char *of, size_t one, size_t other)
{
    printf("%s: %zu %zu\n", of, one, other);
}

int main(void)
{
    same_answers();
    all_acts();
    long_checks();
    all_stacks();
    tell("record", sizeof(adomvik_board), sizeof(struct peer_board));
    return 0;
}
