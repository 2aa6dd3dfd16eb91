/* The yardstick for the C library: the same acts by hand in C, on a record of its own. */
#ifndef FACE_PEER_H
#define FACE_PEER_H

#include "adomvik.h"

struct peer_board {
    uint8_t cells, kind, cycles, latches;
    uint8_t working[5], staged[5];
    uint16_t flags;               /* bit 0 is cell 1, here and below */
    uint16_t over, under;         /* cells with an OV run, with a UV run; on a garden board 1 where a cell has a count */
    uint8_t currents;             /* which of OCD and SCD have a run */
    uint8_t control;              /* register 1 */
    uint16_t low, high;           /* of the last sample, with its shunt below */
    uint8_t row, trigger;         /* of a garden board, with its recovery counts */
    uint8_t ov_back, uv_back;
    uint16_t tallies[5];          /* of SCD, OCD, OV, UV and overtemperature */
    int32_t ov_run[10], uv_run[10];
    int32_t ocd_run, scd_run;
    int32_t shunt;
    uint32_t samples;             /* accepted ones */
    uint32_t numbers[128];        /* the last latchings, in a ring: at which sample, */
    uint8_t whats[128];           /* and the cause above the cell; */
    uint8_t next, len;            /* where the next one goes, and how many there are */
};

uint8_t peer_open(struct peer_board *row, size_t boards, const uint32_t *counts, size_t count);
uint8_t peer_open_plans(struct peer_board *row, size_t boards, const adomvik_plan *plans, size_t count);
uint8_t peer_sample(struct peer_board *row, size_t boards, uint32_t board, adomvik_readings readings, const uint32_t *cells, size_t count, adomvik_sampled *out);
uint8_t peer_sample_board(struct peer_board *board, adomvik_readings readings, const uint32_t *cells, size_t count, adomvik_sampled *out);
uint8_t peer_frame(struct peer_board *row, size_t boards, const uint8_t *frame, size_t length, uint8_t *reply, size_t room);
uint8_t peer_read(const struct peer_board *row, size_t boards, adomvik_reading *out);
uint8_t peer_up(const struct peer_board *row, size_t boards, adomvik_line *out);
uint32_t peer_list(const struct peer_board *row, size_t boards, uint32_t board, uint32_t *words, size_t many);

/* A recording has one form, so the recorder is the library's. */
adomvik_recorder peer_begin(uint8_t *memory, size_t length, const adomvik_plan *plans, size_t count);
adomvik_recorder peer_note_sample(adomvik_recorder recorder, uint8_t *memory, size_t length, uint32_t board, adomvik_readings readings, const uint32_t *cells, size_t count, uint8_t number, uint8_t status, uint16_t bled);
adomvik_recorder peer_note_frame(adomvik_recorder recorder, uint8_t *memory, size_t length, const uint8_t *frame, size_t bytes, const uint8_t *reply, size_t room, uint8_t number);
adomvik_recorder peer_note_reading(adomvik_recorder recorder, uint8_t *memory, size_t length, uint8_t number, uint8_t line, uint8_t chg, uint8_t dsg, uint8_t board, uint8_t cell);
adomvik_recorder peer_note_other(adomvik_recorder recorder);

adomvik_checked peer_check(struct peer_board *row, size_t boards, const uint8_t *recording, size_t length);

#endif
