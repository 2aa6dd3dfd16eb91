/* Adomvik: a proved battery-pack protector, for C11 and C++.
 *
 * A stack is one row of board records, southernmost first, that the caller owns. Every act is lent the row, or one record,
 * and changes it where it lies. The library keeps nothing of its own, calls nothing and allocates nothing.
 *
 * Results. Every act returns 0 where it was accepted, and else the number of the refusal (enum below). A refused act has
 * changed nothing: not the row, not the reply buffer or the entry buffer, not the place for the answer. adomvik_list alone
 * returns something else; call adomvik_listing, which stands in front of it. What records acts, adomvik_begin and the notes at the
 * end, is no act: it returns a recorder, with a verdict in it. Nor is adomvik_check, which does a recording's acts again, and which
 * stands in front of adomvik_check_row.
 *
 * What the proofs assume of a call, and no function can look at:
 *   - each pointer is not NULL and points to as many elements as its length says (a length may be 0), and they are aligned
 *     and can be read; the row, a record, a reply buffer, an entry buffer, a recorder's memory and the place for an answer can
 *     be written too;
 *   - what can be written overlaps nothing else that is passed;
 *   - nobody else touches any of it during the call (an interrupt, another thread).
 * Of what the bytes hold nothing is assumed. Every field of a record and of a recorder is a number, so every pattern of bytes is
 * one, and acts on a record that came from no opening, and notes by a recorder that no beginning gave, are answered too. Any bytes
 * can be checked as a recording.
 */
#ifndef ADOMVIK_H
#define ADOMVIK_H

#include <stddef.h>
#include <stdint.h>

#ifdef __cplusplus
extern "C" {
#define ADOMVIK_ASSERT(condition, text) static_assert(condition, text)
#define ADOMVIK_ALIGN(type) alignof(type)
#else
#define ADOMVIK_ASSERT(condition, text) _Static_assert(condition, text)
#define ADOMVIK_ALIGN(type) _Alignof(type)
#endif

enum {
    ADOMVIK_BOARDS_MAX = 16,
    ADOMVIK_CELLS_MIN = 5, /* of a stand-alone or host board */
    ADOMVIK_CELLS_MAX = 10,
    ADOMVIK_GARDEN_CELLS_MIN = 3,
    ADOMVIK_GARDEN_CELLS_MAX = 5,
    ADOMVIK_TRIGGER_MIN = 1,
    ADOMVIK_TRIGGER_MAX = 255,
    ADOMVIK_FRAME_BYTES = 4,
    ADOMVIK_JOURNAL_MAX = 128,    /* entries of a board's journal */
    ADOMVIK_RECORDING_MAX = 65535 /* bytes of a recording that is made here: of more memory the rest is not used */
};

/* What an act returns, a recorder's verdict, and the number of a check; the table's 12 is a program's own and never comes from here. */
enum {
    ADOMVIK_OK = 0,
    ADOMVIK_BAD_ROW = 1,      /* not 1 to 16 boards, or one of no kind below, or of cells, a row or a trigger that its kind has not */
    ADOMVIK_NO_BOARD = 2,     /* no board of that number */
    ADOMVIK_CELL_LIST = 3,    /* the cell list is not as long as the board's cell count */
    ADOMVIK_ELAPSED = 4,      /* elapsed time not 1 to 100,000 us */
    ADOMVIK_OUT_OF_RANGE = 5, /* a cell or the thermistor above 5,000 mV, the shunt beyond 500,000 uV, the load flag not 0 or 1 */
    ADOMVIK_FRAME_LENGTH = 6, /* the frame is not 4 bytes */
    ADOMVIK_REPLY_ROOM = 7,   /* the reply buffer is under 4 bytes */
    ADOMVIK_CHECK_BYTE = 8,   /* the check byte is wrong */
    ADOMVIK_NO_REGISTER = 9,  /* a board of that kind has no such register, or a write to one that is only read */
    ADOMVIK_BAD_VALUE = 10,   /* a read with a value, or a write of one that the register does not take */
    ADOMVIK_NO_CYCLE = 11,    /* programming staged settings unlike the working ones, three cycles already spent */
    ADOMVIK_CROSSED = 13,     /* programming staged settings whose SCD level is not above their OCD level */
    ADOMVIK_LIST_ROOM = 14,   /* the lent entry buffer is too short for the listing */
    /* of a recorder alone, and the act itself stands */
    ADOMVIK_NOT_RECORDABLE = 15, /* a garden board, another kind of act, a field too large, a body over 255 bytes, a reply buffer under 4 */
    ADOMVIK_RECORDING_ROOM = 16, /* no room in the memory for the header or the act, now or at an earlier act */
    /* of a check alone */
    ADOMVIK_CUT_SHORT = 17,   /* the recording is cut short */
    ADOMVIK_WRONG_FIELD = 18, /* a wrong edition, board or cell count, kind, or body length for its kind */
    ADOMVIK_LEFT_OVER = 19    /* bytes are left over after the last act */
};

/* Register 0, the status byte of a sample: the latched faults and the switches. */
enum {
    ADOMVIK_SCD = 1,
    ADOMVIK_OCD = 2,
    ADOMVIK_OV = 4,
    ADOMVIK_UV = 8,
    ADOMVIK_HOT = 16,
    ADOMVIK_DSG_ON = 64,
    ADOMVIK_CHG_ON = 128
};

/* Causes of a latching, in the order in which the journal has those of one sample. */
enum {
    ADOMVIK_CAUSE_SCD = 0,
    ADOMVIK_CAUSE_OCD = 1,
    ADOMVIK_CAUSE_OV = 2,
    ADOMVIK_CAUSE_UV = 3,
    ADOMVIK_CAUSE_HOT = 4
};

/* Kinds of board. The four faults SCD, OCD, OV and UV of a stand-alone board let go by themselves; those of a host board stay
 * until its host clears them by register 1, and its switches are on only where the host has set their bits there. A garden board
 * is a small pack with OV and UV alone, by counts of samples: no settings, no bleeding, and of the registers only 0 and those of
 * the tallies. */
enum {
    ADOMVIK_STAND_ALONE = 0,
    ADOMVIK_HOST = 1,
    ADOMVIK_GARDEN = 2
};

/* Rows of the garden boards' device table: OV level and hysteresis, UV level and hysteresis in mV. */
enum {
    ADOMVIK_BQ7791500 = 0, /* 4200 200 2900 400, UV waits for the load to be removed */
    ADOMVIK_BQ7791501 = 1, /* 4250 200 2800 400, likewise */
    ADOMVIK_BQ7791504 = 2  /* 4275 100 2000 200, the load is not asked for */
};

/* Register 1, that host boards alone have: read, and written with a value of 0 to 7. It starts at 0 and programming leaves it.
 * A write that takes CLEAR from 1 to 0 clears each of the four faults that is over on the last accepted sample by the levels
 * that work at the write: the highest cell below the OV level, the lowest above the UV level, the shunt at or below the level.
 * DSG and CHG let their switches on where no latch forbids it; a fault that latches, overtemperature too, clears the bits of the
 * switches that it forbids, at that sample only. */
enum {
    ADOMVIK_CONTROL_CLEAR = 1,
    ADOMVIK_CONTROL_DSG = 2,
    ADOMVIK_CONTROL_CHG = 4
};

/* What a board is to be. Plans are made by the three functions below and by nothing else: what stands in one may change. */
typedef struct adomvik_plan {
    uint32_t number;
} adomvik_plan;

/* A stand-alone board of so many cells. Any number makes a plan; one of other than 5 to 10 cells is refused as it is opened. */
static inline adomvik_plan adomvik_stand_alone(uint32_t cells)
{
    adomvik_plan plan = {cells < 256 ? 256u * ADOMVIK_STAND_ALONE + cells : 0};
    return plan;
}

/* A host board of so many cells. */
static inline adomvik_plan adomvik_host(uint32_t cells)
{
    adomvik_plan plan = {cells < 256 ? 256u * ADOMVIK_HOST + cells : 0};
    return plan;
}

/* A garden board of 3 to 5 cells, by a row of the device table and a trigger of 1 to 255: so many counts latch a fault, and so many
 * let it go. It starts with OV latched. */
static inline adomvik_plan adomvik_garden(uint32_t cells, uint32_t row, uint32_t trigger)
{
    const uint32_t number = 16777216u * trigger + 65536u * row + 256u * ADOMVIK_GARDEN + cells;
    adomvik_plan plan = {cells < 256 && row < 256 && trigger < 256 ? number : 0};
    return plan;
}

/* The five settings bytes, each under its register's number. */
typedef struct adomvik_settings {
    uint8_t r6, r7, r8, r9, r10;
} adomvik_settings;

/* A run: 0 where its condition fails, else one more than its microseconds, and never above 10,000,000. */
typedef struct adomvik_currents {
    uint32_t ocd, scd;
} adomvik_currents;

/* The runs of a cell; on a garden board its counts, up by one at a sample past the level and down by one at any other. */
typedef struct adomvik_cell {
    uint32_t ov, uv;
} adomvik_cell;

/* The last accepted sample; before the first one, what no fault is over on: 0, 4,294,967,295 and 2,147,483,647. */
typedef struct adomvik_last {
    uint32_t low;  /* its lowest cell, mV */
    uint32_t high; /* its highest cell, mV */
    int32_t shunt; /* uV */
} adomvik_last;

/* What a garden board has of its own. A recovery count goes up while its fault is latched and every cell is inside level and
 * hysteresis, down at any other sample, and is 0 while the fault is not latched. */
typedef struct adomvik_filter {
    uint8_t row;     /* of the device table */
    uint8_t trigger;
    uint8_t ov_back; /* the recovery count of OV */
    uint8_t uv_back; /* that of UV */
} adomvik_filter;

/* How often each fault has latched since the opening, on every kind of board; a tally stops at 65,535. The OV latch that a garden
 * board starts with is not counted, a latch that was cleared and sets again is. Registers 16 to 20 read the low bytes in this
 * order, 24 to 28 the high bytes, each as the tally is at that read. */
typedef struct adomvik_tallies {
    uint16_t scd, ocd, ov, uv, hot;
} adomvik_tallies;

/* The last 128 latchings of a board, in a ring; adomvik_listing gives them in order. What the tallies count is entered, and nothing
 * else is. Any bytes are a journal: the place of the next entry counts modulo 128, and more than 128 entries are 128. */
typedef struct adomvik_journal {
    uint32_t numbers[ADOMVIK_JOURNAL_MAX]; /* of the board's accepted samples */
    uint8_t whats[ADOMVIK_JOURNAL_MAX];    /* the cause in the upper half, the cell in the lower */
    uint8_t next;                          /* where the next entry goes */
    uint8_t len;                           /* how many entries there are */
} adomvik_journal;

/* One board. Records are made by an opening; copy and keep them as plain bytes. A byte of padding lies between `garden` and
 * `tallies`, two bytes lie behind `journal`, and two records that are equal otherwise may differ in them: compare records by their
 * fields.
 *
 * The record had 104 bytes before there were host boards, 120 before there were garden boards, 124 before there were tallies, 132
 * before there was a journal, and has 780 now. Host boards brought `kind`, in a byte that was padding, and behind all others `last`
 * and `control`; garden boards brought `garden`, and then came `tallies`, each beginning in what was padding; `samples` and `journal`
 * came behind all of these. No other field has moved. What was kept is good still. 132 bytes are a board's of any kind: give it
 * zeros behind them, and its journal begins there, with the next sample as number 1. So are 124, but zeros begin at byte 122, as
 * its tallies. 120 are a stand-alone or a host board's, with the same zeros, and `garden` may be anything, since only a garden board
 * asks for it. 104 are a stand-alone board's: give it kind 0, the same zeros, and anything as `last`, `control` and `garden`. */
typedef struct adomvik_board {
    uint8_t count;              /* cells */
    uint8_t latches;            /* the low five bits of register 0 */
    uint8_t cycles;             /* programming cycles spent */
    uint8_t kind;               /* ADOMVIK_STAND_ALONE, ADOMVIK_HOST or ADOMVIK_GARDEN */
    uint16_t flags;             /* flagged cells: cell 1 is worth 1, cell 2 is worth 2, cell 3 is worth 4 and so on */
    adomvik_settings working;
    adomvik_settings staged;
    adomvik_currents currents;
    adomvik_cell cells[ADOMVIK_CELLS_MAX];
    adomvik_last last;
    uint8_t control;            /* register 1 */
    adomvik_filter garden;      /* of a garden board */
    adomvik_tallies tallies;
    uint32_t samples;           /* accepted ones since the opening; stops at 4,294,967,295 */
    adomvik_journal journal;
} adomvik_board;

/* What a sample reads beside the cells. It is passed by value. */
typedef struct adomvik_readings {
    uint32_t elapsed;    /* us since the board's last accepted sample; a refused sample's time is lost, not made up for later */
    int32_t shunt;       /* uV; discharge is positive, charge is negative */
    uint32_t thermistor; /* mV */
    uint32_t load;       /* 1 attached, 0 not */
} adomvik_readings;

/* An accepted sample. */
typedef struct adomvik_sampled {
    uint8_t status; /* register 0 */
    uint16_t bled;  /* bled cells, as a number like flags */
} adomvik_sampled;

/* A whole-stack reading. */
typedef struct adomvik_reading {
    uint8_t line;  /* 1 where board 1's fault line is up */
    uint8_t chg;   /* 1 where CHG is on at every board */
    uint8_t dsg;   /* 1 where DSG is on at every board */
    uint8_t board; /* the southernmost board with a flagged cell, or 0 */
    uint8_t cell;  /* the lowest flagged cell on it, or 0 */
} adomvik_reading;

/* The fault line alone. */
typedef struct adomvik_line {
    uint8_t line;   /* 1 where board 1's fault line is up */
    uint8_t looked; /* the boards looked at: the number of the southernmost with a latch, or of all boards where none has one */
} adomvik_line;

/* An entry of a listing. Causes and cells of a record that came from no opening may be any numbers up to 15. */
typedef struct adomvik_latching {
    uint32_t cause;  /* ADOMVIK_CAUSE_.. */
    uint32_t cell;   /* of OV and UV the lowest at fault: that stood its delay, or reached its trigger; of the others 0 */
    uint32_t number; /* of the board's accepted sample that latched it, from 1; held at 4,294,967,295 */
} adomvik_latching;

/* How far the recording of a day has come in the memory that is lent for it. It is passed and returned by value: hand on the one
 * that was returned last, with the same memory.
 *
 * A recording is a header, the list of boards, and the acts from the opening on, each with its answer; numbers of more than one
 * byte have the lowest byte first. The header has the edition, 1, in two bytes, the number of boards in two, the number of acts in
 * four; a board has its kind and its cell count, a byte each. An act has a byte for its kind, a byte for the length of its body, the
 * body, and the answer. A sample, 1, has as its body the board in one byte, elapsed in four, load in one, thermistor in two, shunt
 * in four as two's complement, and each cell in two; a frame, 2, has its bytes; a reading, 3, has none. The answer is the refusal's
 * number in one byte and, where that is 0, status and bled cells in one byte and two, the four bytes of the reply, or the five
 * numbers of the reading, a byte each. */
typedef struct adomvik_recorder {
    uint32_t used;   /* bytes of the memory that hold the recording, header first; 0 where nothing is recorded */
    uint16_t acts;   /* acts in it */
    uint8_t stopped; /* 0 while it goes on, 16 where there was no room once, 15 where nothing is recordable, as at any other value */
    uint8_t verdict; /* of the header, or of the act noted last: 0 where it stands in memory, else 15 or 16, or 1 of a beginning */
} adomvik_recorder;

/* What a check tells. */
typedef struct adomvik_checked {
    uint32_t place; /* where number is 0: 0 if every answer is right, else the place of the first wrong act, from 1; where it is 17, 18
                       or 19: the byte, from 0, at which the field begins that is cut short or wrong, or at which what is left over
                       begins, held at 4,294,967,295; where it is 1: how many records the row must have */
    uint8_t number; /* 0 where the recording was read and judged, else 17, 18, 19, or 1 where it has more boards than the lent row */
} adomvik_checked;

ADOMVIK_ASSERT(sizeof(adomvik_plan) == 4 && ADOMVIK_ALIGN(adomvik_plan) == 4, "a plan is a number of 4 bytes");
ADOMVIK_ASSERT(sizeof(adomvik_board) == 780 && ADOMVIK_ALIGN(adomvik_board) == 4, "a board's record is 780 bytes, aligned to 4");
ADOMVIK_ASSERT(offsetof(adomvik_board, count) == 0 && offsetof(adomvik_board, latches) == 1 && offsetof(adomvik_board, cycles) == 2
        && offsetof(adomvik_board, kind) == 3 && offsetof(adomvik_board, flags) == 4 && offsetof(adomvik_board, working) == 6
        && offsetof(adomvik_board, staged) == 11 && offsetof(adomvik_board, currents) == 16 && offsetof(adomvik_board, cells) == 24
        && offsetof(adomvik_board, last) == 104 && offsetof(adomvik_board, control) == 116 && offsetof(adomvik_board, garden) == 117
        && offsetof(adomvik_board, tallies) == 122 && offsetof(adomvik_board, samples) == 132 && offsetof(adomvik_board, journal) == 136,
    "a board's fields lie where the library has them");
ADOMVIK_ASSERT(sizeof(adomvik_settings) == 5 && offsetof(adomvik_settings, r6) == 0 && offsetof(adomvik_settings, r7) == 1
        && offsetof(adomvik_settings, r8) == 2 && offsetof(adomvik_settings, r9) == 3 && offsetof(adomvik_settings, r10) == 4, "settings are 5 bytes");
ADOMVIK_ASSERT(sizeof(adomvik_currents) == 8 && offsetof(adomvik_currents, ocd) == 0 && offsetof(adomvik_currents, scd) == 4, "two runs of 4 bytes");
ADOMVIK_ASSERT(sizeof(adomvik_cell) == 8 && offsetof(adomvik_cell, ov) == 0 && offsetof(adomvik_cell, uv) == 4, "a cell has two runs of 4 bytes");
ADOMVIK_ASSERT(sizeof(adomvik_last) == 12 && offsetof(adomvik_last, low) == 0 && offsetof(adomvik_last, high) == 4
        && offsetof(adomvik_last, shunt) == 8, "a last sample is three numbers of 4 bytes");
ADOMVIK_ASSERT(sizeof(adomvik_filter) == 4 && offsetof(adomvik_filter, row) == 0 && offsetof(adomvik_filter, trigger) == 1
        && offsetof(adomvik_filter, ov_back) == 2 && offsetof(adomvik_filter, uv_back) == 3, "a garden board's own part is 4 bytes");
ADOMVIK_ASSERT(sizeof(adomvik_tallies) == 10 && offsetof(adomvik_tallies, scd) == 0 && offsetof(adomvik_tallies, ocd) == 2
        && offsetof(adomvik_tallies, ov) == 4 && offsetof(adomvik_tallies, uv) == 6 && offsetof(adomvik_tallies, hot) == 8,
    "tallies are five numbers of 2 bytes");
ADOMVIK_ASSERT(sizeof(adomvik_journal) == 644 && ADOMVIK_ALIGN(adomvik_journal) == 4 && offsetof(adomvik_journal, numbers) == 0
        && offsetof(adomvik_journal, whats) == 512 && offsetof(adomvik_journal, next) == 640 && offsetof(adomvik_journal, len) == 641,
    "a journal is 644 bytes, aligned to 4");
ADOMVIK_ASSERT(sizeof(adomvik_readings) == 16 && ADOMVIK_ALIGN(adomvik_readings) == 4, "readings are four numbers of 4 bytes");
ADOMVIK_ASSERT(sizeof(adomvik_sampled) == 4 && offsetof(adomvik_sampled, bled) == 2, "an answer to a sample is 4 bytes");
ADOMVIK_ASSERT(sizeof(adomvik_reading) == 5, "a reading is 5 bytes");
ADOMVIK_ASSERT(sizeof(adomvik_line) == 2 && offsetof(adomvik_line, line) == 0 && offsetof(adomvik_line, looked) == 1, "a fault line is 2 bytes");
ADOMVIK_ASSERT(sizeof(adomvik_latching) == 12 && ADOMVIK_ALIGN(adomvik_latching) == 4 && offsetof(adomvik_latching, cause) == 0
        && offsetof(adomvik_latching, cell) == 4 && offsetof(adomvik_latching, number) == 8, "an entry is three numbers of 4 bytes");
ADOMVIK_ASSERT(sizeof(adomvik_recorder) == 8 && ADOMVIK_ALIGN(adomvik_recorder) == 4 && offsetof(adomvik_recorder, used) == 0
        && offsetof(adomvik_recorder, acts) == 4 && offsetof(adomvik_recorder, stopped) == 6 && offsetof(adomvik_recorder, verdict) == 7,
    "a recorder is 8 bytes, aligned to 4");
ADOMVIK_ASSERT(sizeof(adomvik_checked) == 8 && ADOMVIK_ALIGN(adomvik_checked) == 4 && offsetof(adomvik_checked, place) == 0
        && offsetof(adomvik_checked, number) == 4, "what a check tells is 8 bytes, aligned to 4");

/* Opens a stack of stand-alone boards: counts[i] is the cell count of board i + 1, one for each record of the row. Every record
 * of the row is made anew, whatever it held. Refusal 1 also where the two lengths differ. */
uint8_t adomvik_open(adomvik_board *row, size_t boards, const uint32_t *counts, size_t count);

/* The same by a plan for each board, made by adomvik_stand_alone, adomvik_host or adomvik_garden; a row may mix kinds. */
uint8_t adomvik_open_plans(adomvik_board *row, size_t boards, const adomvik_plan *plans, size_t count);

/* A sample of one board of the row, in mV for each cell from cell 1 up. Refusals 1, 2, 3, 4, 5. */
uint8_t adomvik_sample(adomvik_board *row, size_t boards, uint32_t board, adomvik_readings readings, const uint32_t *cells, size_t count, adomvik_sampled *out);

/* The same of one record that is lent by itself; no row is looked at. Refusals 1 (by this record), 3, 4, 5. */
uint8_t adomvik_sample_board(adomvik_board *board, adomvik_readings readings, const uint32_t *cells, size_t count, adomvik_sampled *out);

/* A frame from the host. The reply takes the first four bytes of its buffer; later bytes stay. The frame and the reply must not
 * be one buffer: what can be written overlaps nothing else. Refusals 1, 6, 7, 8, 2, 9, 10, 13, 11. */
uint8_t adomvik_frame(adomvik_board *row, size_t boards, const uint8_t *frame, size_t length, uint8_t *reply, size_t room);

/* The whole-stack reading. Refusal 1, which no opened row gets. */
uint8_t adomvik_read(const adomvik_board *row, size_t boards, adomvik_reading *out);

/* Is anything up? The line of the reading alone, by a search that stops at the first board with a latch. The OV latch that a garden
 * board starts with is one; a host board whose switches are off has none by that. Refusal 1, for which the whole row is looked at,
 * and which no opened row gets. */
uint8_t adomvik_up(const adomvik_board *row, size_t boards, adomvik_line *out);

/* What adomvik_listing calls: three numbers for each entry, and of all `many` only those are written. Returns how many entries there
 * are, or 256 and the number of the refusal. */
uint32_t adomvik_list(const adomvik_board *row, size_t boards, uint32_t board, uint32_t *words, size_t many);

/* The journal of one board of the row, oldest entry first. So many of the lent entries are put as *count says; later ones stay.
 * ADOMVIK_JOURNAL_MAX are always enough, and more room changes nothing. Refusals 1, 2, 14; each leaves *count too. */
static inline uint8_t adomvik_listing(const adomvik_board *row, size_t boards, uint32_t board, adomvik_latching *entries, size_t room, size_t *count)
{
    size_t lent = ADOMVIK_JOURNAL_MAX;
    if (room < lent)
        lent = room;
    const uint32_t told = adomvik_list(row, boards, board, (uint32_t *)entries, 3 * lent);
    if (told >= 256)
        return (uint8_t)(told - 256);
    *count = told;
    return ADOMVIK_OK;
}

/* Begins the recording of a stack that these plans open, before its first act: writes the header and the list of boards. Verdict 1
 * where the plans open no stack, else 15 where one is of a garden board, else 16 where the memory has no room for it. Then the memory
 * is as it was and nothing is recorded: every act that is noted gets 15, or after a 16 what it would get after an earlier 16. */
adomvik_recorder adomvik_begin(uint8_t *memory, size_t length, const adomvik_plan *plans, size_t count);

/* Notes an act behind the recording: what was asked, the number that was returned, and the answer, which is not looked at where the
 * number is not 0. Refused acts are noted too. Where the verdict is 0 the act stands in memory and the header counts it; what lies
 * behind is never written. Else the memory is as it was: at 15, which is given first, the recording goes on without the act; from the
 * first 16 on, every act that could be recorded gets 16. A recorder that no beginning gave has no room where it could not be one:
 * with less than 8 bytes used, or with 65,535 acts.
 *
 * A sample: 15 where the board or the load is over 255, the thermistor or a cell over 65,535, or there are more than 121 cells. */
adomvik_recorder adomvik_note_sample(adomvik_recorder recorder, uint8_t *memory, size_t length, uint32_t board, adomvik_readings readings,
    const uint32_t *cells, size_t count, uint8_t number, uint8_t status, uint16_t bled);

/* A frame, with the reply buffer as it is afterwards: 15 where the frame has more than 255 bytes, or the buffer less than 4. */
adomvik_recorder adomvik_note_frame(adomvik_recorder recorder, uint8_t *memory, size_t length, const uint8_t *frame, size_t bytes,
    const uint8_t *reply, size_t room, uint8_t number);

/* A whole-stack reading. */
adomvik_recorder adomvik_note_reading(adomvik_recorder recorder, uint8_t *memory, size_t length, uint8_t number, uint8_t line, uint8_t chg,
    uint8_t dsg, uint8_t board, uint8_t cell);

/* A listing, or a look for the fault line: 15. */
adomvik_recorder adomvik_note_other(adomvik_recorder recorder);

/* What adomvik_check calls: the same on a row that has a record for each board of the recording, and no more. 1 also where it has more;
 * the place is then how many it must have, too. */
adomvik_checked adomvik_check_row(adomvik_board *row, size_t boards, const uint8_t *recording, size_t length);

/* Checks a recording, of any length and from whoever wrote it. First it is read, field by field from the front, and each field is cut
 * short (17) or wrong (18) before the next is looked at; a body is one field, and so is what follows an answer's 0. 17, 18 and 19 come
 * before anything is judged, and then 1 where the row has fewer records than the recording has boards, which are told as the place;
 * ADOMVIK_BOARDS_MAX are always enough. At each of these the row is as it was.
 *
 * Else the first records of the row, one for each board of the recording, are opened by the kinds and cells that it lists, whatever
 * they held; later ones stay. The acts are done again in their order, each frame with four bytes lent for its reply, and each answer
 * is held against the recorded one, byte for byte, up to the first that differs: the row is then the stack behind that act, as it
 * should have been, or behind the last one where every answer is right. A recorded 7 is thus always wrong, and so is a number that no
 * refusal has. A recording of no acts is right. */
static inline adomvik_checked adomvik_check(adomvik_board *row, size_t boards, const uint8_t *recording, size_t length)
{
    size_t lent = boards;
    if (length >= 4) {
        const size_t has = recording[2] + (size_t)256 * recording[3];
        if (has < lent)
            lent = has;
    }
    return adomvik_check_row(row, lent, recording, length);
}

#ifdef __cplusplus
}
#endif

#endif
