/* A firmware main loop over a stack of two boards, on a simulated board: it reads samples, drives two switch pins and answers
 * the host's frames, and records all of it; at the end it shows what latched on each board, and how much was recorded. What stands
 * under "the simulated board" is what a real one has as hardware; what it says goes to a console (desk/console.c, or
 * cortex-m4/console.c on bare metal). firmware.rs is the same in Rust.
 */
#include <stdbool.h>

#include "adomvik.h"
#include "console.h"

enum { BOARDS = 2, TICKS = 16, TICK_US = 100000, RECORDING_BYTES = 1024 };

static const uint32_t cell_counts[BOARDS] = {5, 6};

/* ---- the simulated board */

static int tick;

static void say_tick(const char *what)
{
    say("tick ");
    say_number((unsigned)tick);
    say(what);
}

/* A short circuit in ticks 3 and 4, the load gone from tick 6 on; the top cell of board 2 too high from tick 7 to 13. */
static adomvik_readings read_sensors(uint32_t board, uint32_t *cells)
{
    for (uint32_t i = 0; i < cell_counts[board - 1]; i++)
        cells[i] = 3900;
    if (board == 2 && tick >= 7 && tick <= 13)
        cells[cell_counts[1] - 1] = 4200;
    const bool shorted = tick == 3 || tick == 4;
    adomvik_readings x = {.elapsed = TICK_US, .shunt = shorted ? 90000 : 0, .thermistor = 2000, .load = tick < 6};
    return x;
}

static void drive_pins(bool chg, bool dsg)
{
    static int shown = -1;
    const int now = chg * 2 + dsg;
    if (now != shown) {
        say_tick(chg ? ": chg 1" : ": chg 0");
        say(dsg ? " dsg 1\n" : " dsg 0\n");
    }
    shown = now;
}

/* Frames from the host: a read of register 0, a wrong check byte, OV delay and level of board 2 staged, programmed, read back. */
static size_t receive(uint8_t *frame)
{
    static const struct {
        int tick;
        uint8_t bytes[4];
    } host[] = {{2, {2, 0, 0, 214}}, {4, {2, 0, 0, 214}}, {5, {2, 0, 0, 215}}, {9, {5, 6, 33, 89}}, {14, {5, 11, 65, 151}}, {15, {4, 6, 0, 213}}};
    for (size_t i = 0; i < sizeof host / sizeof *host; i++)
        if (host[i].tick == tick) {
            for (size_t k = 0; k < 4; k++)
                frame[k] = host[i].bytes[k];
            return 4;
        }
    return 0;
}

static void send(const uint8_t *reply)
{
    say_tick(": reply");
    for (size_t i = 0; i < ADOMVIK_FRAME_BYTES; i++) {
        say(" ");
        say_number(reply[i]);
    }
    say("\n");
}

/* ---- the firmware */

static adomvik_board stack[BOARDS];

/* The recording lies where it can be fetched at the end of the day, by the host or from a flash. */
static uint8_t recording[RECORDING_BYTES];
static adomvik_recorder recorder;

/* The recorder behind an act, which stands whatever its verdict is; that the memory is full is said once. */
static void noted(adomvik_recorder next)
{
    if (next.stopped != recorder.stopped)
        say_tick(": the recording is full\n");
    recorder = next;
}

/* Every board sampled; false where one was refused, and then nothing is known of it. */
static bool sample_all(void)
{
    bool good = true;
    for (uint32_t board = 1; board <= BOARDS; board++) {
        uint32_t cells[ADOMVIK_CELLS_MAX];
        adomvik_sampled answer = {0};
        const size_t count = cell_counts[board - 1];
        const adomvik_readings x = read_sensors(board, cells);
        const uint8_t refusal = adomvik_sample(stack, BOARDS, board, x, cells, count, &answer);
        noted(adomvik_note_sample(recorder, recording, sizeof recording, board, x, cells, count, refusal, answer.status, answer.bled));
        good &= refusal == ADOMVIK_OK;
    }
    return good;
}

/* The stack as a whole; false where that was refused. */
static bool read_stack(adomvik_reading *pack)
{
    const uint8_t refusal = adomvik_read(stack, BOARDS, pack);
    noted(adomvik_note_reading(recorder, recording, sizeof recording, refusal, pack->line, pack->chg, pack->dsg, pack->board, pack->cell));
    return refusal == ADOMVIK_OK;
}

/* A refused frame gets no reply: the host asks again. */
static void answer_host(void)
{
    uint8_t frame[ADOMVIK_FRAME_BYTES], reply[ADOMVIK_FRAME_BYTES] = {0};
    const size_t length = receive(frame);
    if (length == 0)
        return;
    const uint8_t refusal = adomvik_frame(stack, BOARDS, frame, length, reply, sizeof reply);
    noted(adomvik_note_frame(recorder, recording, sizeof recording, frame, length, reply, sizeof reply, refusal));
    if (refusal == ADOMVIK_OK) {
        send(reply);
        return;
    }
    say_tick(": frame refused, ");
    say_number(refusal);
    say("\n");
}

static const char *name(uint32_t cause)
{
    switch (cause) {
    case ADOMVIK_CAUSE_SCD: return "SCD";
    case ADOMVIK_CAUSE_OCD: return "OCD";
    case ADOMVIK_CAUSE_OV: return "OV";
    case ADOMVIK_CAUSE_UV: return "UV";
    default: return "overtemperature";
    }
}

/* The journal of a board, oldest latching first. */
static void show_journal(uint32_t board)
{
    static adomvik_latching entries[ADOMVIK_JOURNAL_MAX];
    size_t count = 0;
    if (adomvik_listing(stack, BOARDS, board, entries, ADOMVIK_JOURNAL_MAX, &count) != ADOMVIK_OK)
        return;
    for (size_t i = 0; i < count; i++) {
        say("board ");
        say_number(board);
        say(": ");
        say(name(entries[i].cause));
        if (entries[i].cell > 0) {
            say(", cell ");
            say_number(entries[i].cell);
            say(",");
        }
        say(" at sample ");
        say_number(entries[i].number);
        say("\n");
    }
}

static void show_recording(void)
{
    say("recorded ");
    say_number(recorder.acts);
    say(" acts in ");
    say_number(recorder.used);
    say(" bytes\n");
}

/* The stack opened, and its recording begun; false where either cannot be. */
static bool begin(void)
{
    adomvik_plan plans[BOARDS];
    for (size_t i = 0; i < BOARDS; i++)
        plans[i] = adomvik_stand_alone(cell_counts[i]);
    if (adomvik_open_plans(stack, BOARDS, plans, BOARDS) != ADOMVIK_OK)
        return false;
    recorder = adomvik_begin(recording, sizeof recording, plans, BOARDS);
    return recorder.verdict == ADOMVIK_OK;
}

int main(void)
{
    if (!begin())
        return 1;
    for (tick = 0; tick < TICKS; tick++) {
        adomvik_reading pack = {0};
        /* both switches off where anything is refused */
        if (!sample_all() || !read_stack(&pack))
            drive_pins(false, false);
        else
            drive_pins(pack.chg, pack.dsg);
        answer_host();
    }
    for (uint32_t board = 1; board <= BOARDS; board++)
        show_journal(board);
    show_recording();
    return 0;
}
