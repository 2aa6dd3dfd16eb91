/* The C face under test: acts from standard input, one to a line, each answered by one line. The face in Rust, drive.rs, reads
 * and writes the same.
 *
 *     O boards counts..                                  an opening by cell counts
 *     P boards and kind cells row trigger of each        an opening by plans
 *     S boards board elapsed shunt thermistor load cells..   a sample of the row
 *     B place elapsed shunt thermistor load cells..      a sample of the record at a place, from 0
 *     F boards room bytes..                              a frame, with a reply buffer of so many bytes
 *     R boards                                           a reading
 *     U boards                                           the fault line alone
 *     L boards board room                                a listing, with a buffer of so many entries
 *     W place bytes..                                    780 bytes over the record at a place, and no act
 *     M length and kind cells row trigger of each        a recording begun by plans, in a memory of so many bytes
 *     s board elapsed shunt thermistor load number status bled cells..   a sample noted
 *     f number room reply.. bytes..                      a frame noted, with a reply buffer of so many bytes
 *     r number line chg dsg board cell                   a reading noted
 *     o                                                  a listing or a look noted
 *     D                                                  the bytes of the recording's memory and of the guards beside it
 *     G length used acts stopped verdict                 any recorder, with a memory of so many bytes, and no note
 *     H at bytes..                                       bytes of a recording from a place on, and no act
 *     C boards length at byte                            its first bytes checked, so many, with another byte at a place among them
 *     K tries                                            the check byte of every frame of 2^17, that many bytes tried (here alone)
 *     T latchings                                        a tally and the journal after each of so many latchings (here alone)
 *
 * An answer: the act's number, what stands in the place for the answer or in the buffer, and a checksum of all records; of a note
 * the verdict, the recorder's other fields, and a checksum of its memory and the guards; of a check its number, its place, and a
 * checksum of all records. Before an act these places hold PATTERN, so that what a refusal wrote would show. Every list is lent in a block of just its size. Nothing of a C library is used, nor a
 * division, so that the same driver runs on the smallest processor (platform.h).
 */
#include "adomvik.h"
#include "platform.h"

enum { RECORDS = 18, NUMBERS = 784, LINE = 3200, BUFFER = 1024, PATTERN = 0xa5 };

/* Bytes in front of a recording's memory and behind it; they have it lie at any address. */
enum { GUARD = 13 };

/* A record's padding: one byte in front of the tallies, and what lies behind the journal. */
enum { PADDING = offsetof(adomvik_board, garden) + sizeof(adomvik_filter) };
enum { RECORD_END = offsetof(adomvik_board, journal) + offsetof(adomvik_journal, len) + 1 };

static adomvik_board *row;
static uint32_t number[NUMBERS]; /* one below 0 as its two's complement */
static size_t numbers;

/* ---- text */

static char answers[BUFFER];
static size_t answered;

static void put_char(char c)
{
    if (answered == BUFFER) {
        give(answers, answered);
        answered = 0;
    }
    answers[answered++] = c;
}

static void put_number(uint32_t n)
{
    static const uint32_t places[] = {1000000000, 100000000, 10000000, 1000000, 100000, 10000, 1000, 100, 10, 1};
    int begun = 0;
    for (size_t i = 0; i < sizeof places / sizeof *places; i++) {
        char digit = '0';
        for (; n >= places[i]; n -= places[i])
            digit++;
        begun |= digit != '0' || places[i] == 1;
        if (begun)
            put_char(digit);
    }
}

static void put_hex(uint32_t n, int digits)
{
    while (digits-- > 0)
        put_char("0123456789abcdef"[n >> 4 * digits & 15]);
}

/* The next line of the script, without its newline; NULL at the end. */
static const char *next_line(void)
{
    static char line[LINE], taken[BUFFER];
    static size_t at, end;
    for (size_t length = 0; length < LINE; length++) {
        if (at == end) {
            at = 0;
            end = take(taken, BUFFER);
            if (end == 0)
                return 0;
        }
        line[length] = taken[at++];
        if (line[length] == '\n') {
            line[length] = 0;
            return line;
        }
    }
    __builtin_trap();
}

static void read_numbers(const char *p)
{
    for (numbers = 0; *p == ' '; numbers++) {
        const int minus = *++p == '-';
        uint32_t n = 0;
        for (p += minus; *p >= '0' && *p <= '9'; p++)
            n = 10 * n + (uint32_t)(*p - '0');
        number[numbers] = minus ? 0 - n : n;
    }
}

/* ---- what is lent */

/* The numbers from place `from` on, as a list of 32-bit numbers or of bytes. */
static uint32_t *words(size_t from)
{
    uint32_t *list = block((numbers - from) * sizeof *list);
    for (size_t i = from; i < numbers; i++)
        list[i - from] = number[i];
    return list;
}

static uint8_t *bytes(size_t from, size_t to)
{
    uint8_t *list = block(to - from);
    for (size_t i = from; i < to; i++)
        list[i - from] = (uint8_t)number[i];
    return list;
}

/* A plan of four numbers: kind, cells, row, trigger. */
static adomvik_plan plan(const uint32_t *x)
{
    switch (x[0]) {
    case ADOMVIK_STAND_ALONE: return adomvik_stand_alone(x[1]);
    case ADOMVIK_HOST: return adomvik_host(x[1]);
    default: return adomvik_garden(x[1], x[2], x[3]);
    }
}

static adomvik_plan *plans(size_t from)
{
    adomvik_plan *list = block((numbers - from) / 4 * sizeof *list);
    for (size_t i = from; i < numbers; i += 4)
        list[(i - from) / 4] = plan(&number[i]);
    return list;
}

/* A place for an answer. */
static void *blank(size_t size)
{
    uint8_t *place = block(size);
    for (size_t i = 0; i < size; i++)
        place[i] = PATTERN;
    return place;
}

static adomvik_readings readings(size_t from)
{
    adomvik_readings x = {number[from], (int32_t)number[from + 1], number[from + 2], number[from + 3]};
    return x;
}

/* ---- answers */

/* CRC-32, as zlib has it, gone on with by one byte; by half bytes. */
static uint32_t crc_next(uint32_t crc, uint8_t byte)
{
    static const uint32_t halves[16] = {
        0x00000000, 0x1db71064, 0x3b6e20c8, 0x26d930ac, 0x76dc4190, 0x6b6b51f4, 0x4db26158, 0x5005713c,
        0xedb88320, 0xf00f9344, 0xd6d6a3e8, 0xcb61b38c, 0x9b64c2b0, 0x86d3d2d4, 0xa00ae278, 0xbdbdf21c,
    };
    crc ^= byte;
    crc = crc >> 4 ^ halves[crc & 15];
    return crc >> 4 ^ halves[crc & 15];
}

/* Of the records, but for the padding in each. */
static uint32_t checksum(void)
{
    const unsigned char *p = (const unsigned char *)row;
    uint32_t crc = 0xffffffff;
    for (size_t n = 0; n < RECORDS; n++, p += sizeof *row)
        for (size_t i = 0; i < RECORD_END; i++)
            if (i != PADDING)
                crc = crc_next(crc, p[i]);
    return ~crc;
}

static void put_next(uint32_t n)
{
    put_char(' ');
    put_number(n);
}

static void answer_end(void)
{
    put_char(' ');
    put_hex(checksum(), 8);
    put_char('\n');
}

static void told_sample(uint8_t result, const adomvik_sampled *out)
{
    put_number(result);
    put_next(out->status);
    put_next(out->bled);
    answer_end();
}

/* ---- the acts */

static void open_row(void)
{
    uint32_t *counts = words(1);
    put_number(adomvik_open(row, number[0], counts, numbers - 1));
    answer_end();
    release(counts);
}

static void open_plans(void)
{
    adomvik_plan *list = plans(1);
    put_number(adomvik_open_plans(row, number[0], list, (numbers - 1) / 4));
    answer_end();
    release(list);
}

static void sample_row(void)
{
    uint32_t *cells = words(6);
    adomvik_sampled *out = blank(sizeof *out);
    told_sample(adomvik_sample(row, number[0], number[1], readings(2), cells, numbers - 6, out), out);
    release(out);
    release(cells);
}

static void sample_one(void)
{
    uint32_t *cells = words(5);
    adomvik_sampled *out = blank(sizeof *out);
    told_sample(adomvik_sample_board(&row[number[0]], readings(1), cells, numbers - 5, out), out);
    release(out);
    release(cells);
}

static void frame(void)
{
    const size_t room = number[1];
    uint8_t *sent = bytes(2, numbers), *reply = blank(room);
    put_number(adomvik_frame(row, number[0], sent, numbers - 2, reply, room));
    for (size_t i = 0; i < room; i++) {
        if (i == 0)
            put_char(' ');
        put_hex(reply[i], 2);
    }
    answer_end();
    release(reply);
    release(sent);
}

static void reading(void)
{
    adomvik_reading *out = blank(sizeof *out);
    put_number(adomvik_read(row, number[0], out));
    put_next(out->line);
    put_next(out->chg);
    put_next(out->dsg);
    put_next(out->board);
    put_next(out->cell);
    answer_end();
    release(out);
}

/* Whether the reading is refused as the fault line was, or has that line. */
static int same_by_reading(uint8_t result, const adomvik_line *up)
{
    adomvik_reading *whole = blank(sizeof *whole);
    const int same = adomvik_read(row, number[0], whole) == result && whole->line == up->line;
    release(whole);
    return same;
}

/* The number is 255 where the reading differs. */
static void fault_line(void)
{
    adomvik_line *out = blank(sizeof *out);
    const uint8_t result = adomvik_up(row, number[0], out);
    put_number(same_by_reading(result, out) ? result : 255);
    put_next(out->line);
    put_next(out->looked);
    answer_end();
    release(out);
}

/* Whether a listing by words does as the one by entries did, with so many words more than the entries have; those stay too. */
static int same_by_words(uint8_t result, size_t count, const adomvik_latching *entries, size_t room, size_t more)
{
    uint32_t *list = blank((3 * room + more) * sizeof *list), *word = list;
    const uint32_t untouched = PATTERN * 0x01010101u;
    int same = adomvik_list(row, number[0], number[1], list, 3 * room + more) == (result ? 256u + result : count);
    for (size_t i = 0; i < room; i++, word += 3)
        same &= word[0] == entries[i].cause && word[1] == entries[i].cell && word[2] == entries[i].number;
    for (; more > 0; more--)
        same &= *word++ == untouched;
    release(list);
    return same;
}

/* The number is 255 where the entry by words differs. */
static void listing(void)
{
    const size_t room = number[2];
    adomvik_latching *entries = blank(room * sizeof *entries);
    size_t *count = blank(sizeof *count);
    const uint8_t result = adomvik_listing(row, number[0], number[1], entries, room, count);
    int same = 1;
    for (size_t more = 0; more < 3; more++)
        same &= same_by_words(result, *count, entries, room, more);
    put_number(same ? result : 255);
    put_next((uint32_t)*count);
    for (size_t i = 0; i < room; i++) {
        put_next(entries[i].cause);
        put_next(entries[i].cell);
        put_next(entries[i].number);
    }
    answer_end();
    release(count);
    release(entries);
}

static void overwrite(void)
{
    for (size_t i = 0; i < sizeof *row; i++)
        ((uint8_t *)&row[number[0]])[i] = (uint8_t)number[1 + i];
}

/* ---- recordings */

static adomvik_recorder recorder;
static uint8_t *tape; /* guards and memory */
static size_t length; /* of the memory */

/* Another memory, and no recording in it. */
static void new_tape(size_t bytes)
{
    if (tape)
        release(tape);
    tape = blank(bytes + 2 * GUARD);
    length = bytes;
}

static void told_recorder(adomvik_recorder next)
{
    uint32_t crc = 0xffffffff;
    for (size_t i = 0; i < length + 2 * GUARD; i++)
        crc = crc_next(crc, tape[i]);
    recorder = next;
    put_number(recorder.verdict);
    put_next(recorder.used);
    put_next(recorder.acts);
    put_next(recorder.stopped);
    put_char(' ');
    put_hex(~crc, 8);
    put_char('\n');
}

static void begin(void)
{
    new_tape(number[0]);
    adomvik_plan *list = plans(1);
    told_recorder(adomvik_begin(tape + GUARD, length, list, (numbers - 1) / 4));
    release(list);
}

static void any_recorder(void)
{
    new_tape(number[0]);
    recorder = (adomvik_recorder){number[1], (uint16_t)number[2], (uint8_t)number[3], (uint8_t)number[4]};
}

static void note_sample(void)
{
    uint32_t *cells = words(8);
    told_recorder(adomvik_note_sample(recorder, tape + GUARD, length, number[0], readings(1), cells, numbers - 8, (uint8_t)number[5],
        (uint8_t)number[6], (uint16_t)number[7]));
    release(cells);
}

static void note_frame(void)
{
    const size_t room = number[1], from = 2 + room;
    uint8_t *reply = bytes(2, from), *sent = bytes(from, numbers);
    told_recorder(adomvik_note_frame(recorder, tape + GUARD, length, sent, numbers - from, reply, room, (uint8_t)number[0]));
    release(sent);
    release(reply);
}

static void note_reading(void)
{
    const uint32_t *n = number;
    told_recorder(adomvik_note_reading(recorder, tape + GUARD, length, (uint8_t)n[0], (uint8_t)n[1], (uint8_t)n[2], (uint8_t)n[3],
        (uint8_t)n[4], (uint8_t)n[5]));
}

static void note_other(void)
{
    told_recorder(adomvik_note_other(recorder));
}

static void show_memory(void)
{
    put_number(0);
    put_char(' ');
    for (size_t i = 0; i < length + 2 * GUARD; i++)
        put_hex(tape[i], 2);
    put_char('\n');
}

/* ---- recordings that are checked */

#ifdef __ARM_EABI__
enum { RECORDING = 1500 };
#else
enum { RECORDING = 81920 };
#endif

static uint8_t recording[RECORDING];

static void put_recording(void)
{
    if (number[0] + (numbers - 1) > RECORDING)
        __builtin_trap();
    for (size_t i = 1; i < numbers; i++)
        recording[number[0] + i - 1] = (uint8_t)number[i];
}

/* The byte that is checked at a place. */
static uint8_t recorded(size_t at)
{
    return at == number[2] ? (uint8_t)number[3] : recording[at];
}

/* What a check of the recording in this block tells; 255 where it has changed a byte of it. */
static adomvik_checked checked_in(uint8_t *lent)
{
    const size_t bytes = number[1];
    for (size_t i = 0; i < bytes; i++)
        lent[i] = recorded(i);
    adomvik_checked told = adomvik_check(row, number[0], lent, bytes);
    for (size_t i = 0; i < bytes; i++)
        if (lent[i] != recorded(i))
            told.number = 255;
    return told;
}

/* Once where nothing behind the recording can be read, and once more in a block like any other, on the row that the first left: the
 * number is 255 where these differ. */
static void check(void)
{
    uint8_t *lent = edge(number[1]);
    const adomvik_checked told = checked_in(lent);
    edge_end(lent);
    const uint32_t left = checksum();
    lent = block(number[1]);
    const adomvik_checked again = checked_in(lent);
    release(lent);
    put_number(again.number == told.number && again.place == told.place && checksum() == left ? told.number : 255);
    put_next(told.place);
    answer_end();
}

/* ---- the check byte */

/* By long division: what three bytes with eight zeros behind them leave of x^8 + x^2 + x + 1. */
static uint32_t divided(uint32_t message)
{
    uint32_t left = message << 8;
    for (int place = 31; place >= 8; place--)
        if (left >> place & 1)
            left ^= (uint32_t)0x107 << (place - 8);
    return left;
}

/* Whether these bytes get an 8 with every check byte that is tried but the one by long division, and a reply has the one of its own. */
static int agrees(adomvik_board *board, uint32_t message, uint32_t tries)
{
    const uint32_t right = divided(message);
    for (uint32_t k = 0; k < tries; k++) {
        const uint8_t sent[4] = {(uint8_t)(message >> 16), (uint8_t)(message >> 8), (uint8_t)message, (uint8_t)(right ^ k)};
        uint8_t reply[4];
        const uint8_t result = adomvik_frame(board, 1, sent, 4, reply, 4);
        if ((result == 8) != (k != 0))
            return 0;
        if (result == 0 && reply[3] != divided((uint32_t)reply[0] << 16 | (uint32_t)reply[1] << 8 | reply[2]))
            return 0;
    }
    return 1;
}

/* A step of the check takes the register so far and a byte. With the first byte fixed, the second takes the register through all its
 * values, since shifts are one to one, and the third goes with each; and so one step earlier, with the third byte fixed. Answers 0
 * where all agree. The board is one of its own.
 */
static void check_bytes(void)
{
    adomvik_board board;
    const uint32_t cells = 5;
    int wrong = adomvik_open(&board, 1, &cells, 1);
    for (uint32_t pair = 0; pair < 1u << 16; pair++)
        wrong |= !agrees(&board, 2u << 16 | pair, number[0]) || !agrees(&board, pair << 8, number[0]);
    put_number((uint32_t)wrong);
    answer_end();
}

/* ---- where a tally stops, and what a journal keeps */

enum { TALLIES = 5, TALLY_LOW = 16, TALLY_HIGH = 24, TALLY_MOST = 65535 };

static const uint32_t SAMPLES_MOST = 0xffffffff;

/* Whether a register of the board reads so. */
static int reads(adomvik_board *board, uint32_t reg, uint32_t value)
{
    const uint8_t sent[4] = {2, (uint8_t)reg, 0, (uint8_t)divided(2u << 16 | reg << 8)};
    uint8_t reply[4];
    return adomvik_frame(board, 1, sent, 4, reply, 4) == 0 && reply[2] == value;
}

static int tally_is(adomvik_board *board, uint32_t fault, uint32_t tally)
{
    return reads(board, TALLY_LOW + fault, tally & 255) && reads(board, TALLY_HIGH + fault, tally >> 8);
}

/* Whether a sample with this shunt is accepted and leaves the board with these latches. */
static int leaves(adomvik_board *board, int32_t shunt, uint8_t latches)
{
    static const uint32_t cells[] = {3900, 3900, 3900, 3900, 3900};
    const adomvik_readings x = {1000, shunt, 2000, 0};
    adomvik_sampled out;
    return adomvik_sample_board(board, x, cells, 5, &out) == 0 && board->latches == latches;
}

/* Whether the journal has the last 128 of so many latchings of SCD, at every other sample from the first on, but the last few at
 * another number.
 */
static int journal_is(const adomvik_board *board, uint32_t latchings, uint32_t few, uint32_t at)
{
    const uint32_t held = latchings < ADOMVIK_JOURNAL_MAX ? latchings : ADOMVIK_JOURNAL_MAX;
    adomvik_latching *entries = blank(ADOMVIK_JOURNAL_MAX * sizeof *entries);
    size_t count = 0;
    int good = adomvik_listing(board, 1, 1, entries, held, &count) == 0 && count == held;
    for (uint32_t i = 0; i < held; i++) {
        const uint32_t wanted = i + few < held ? 2 * (latchings - held + i) + 1 : at;
        good &= entries[i].cause == 0 && entries[i].cell == 0 && entries[i].number == wanted;
    }
    release(entries);
    return good;
}

/* A short circuit that comes and goes: after n latchings the tally of SCD, which is the first, is n, or 65,535 from there on, and
 * no other has moved; the journal has the last 128 of them, with the number of each sample. Then the record is set one sample short
 * of the number's top, which later latchings are entered at. Answers 0 where that holds throughout. The board is one of its own.
 */
static void latch_often(void)
{
    adomvik_board board;
    const uint32_t cells = 5;
    int wrong = adomvik_open(&board, 1, &cells, 1) || !journal_is(&board, 0, 0, 0);
    for (uint32_t n = 1; n <= number[0]; n++)
        wrong |= !leaves(&board, 60001, ADOMVIK_SCD) || !tally_is(&board, 0, n < TALLY_MOST ? n : TALLY_MOST)
              || !journal_is(&board, n, 0, 0) || !leaves(&board, 0, 0);
    for (uint32_t fault = 1; fault < TALLIES; fault++)
        wrong |= !tally_is(&board, fault, 0);
    board.samples = SAMPLES_MOST - 1;
    for (uint32_t few = 1; few <= 3; few++)
        wrong |= !leaves(&board, 60001, ADOMVIK_SCD) || !journal_is(&board, number[0] + few, few, SAMPLES_MOST)
              || !leaves(&board, 0, 0);
    put_number((uint32_t)wrong);
    answer_end();
}

int main(void)
{
    row = block(RECORDS * sizeof *row);
    for (size_t i = 0; i < RECORDS * sizeof *row; i++)
        ((uint8_t *)row)[i] = 0;
    for (const char *line = next_line(); line; line = next_line()) {
        read_numbers(line + 1);
        switch (line[0]) {
        case 'O': open_row(); break;
        case 'P': open_plans(); break;
        case 'S': sample_row(); break;
        case 'B': sample_one(); break;
        case 'F': frame(); break;
        case 'R': reading(); break;
        case 'U': fault_line(); break;
        case 'L': listing(); break;
        case 'W': overwrite(); break;
        case 'M': begin(); break;
        case 's': note_sample(); break;
        case 'f': note_frame(); break;
        case 'r': note_reading(); break;
        case 'o': note_other(); break;
        case 'D': show_memory(); break;
        case 'G': any_recorder(); break;
        case 'H': put_recording(); break;
        case 'C': check(); break;
        case 'K': check_bytes(); break;
        case 'T': latch_often(); break;
        default: return 2;
        }
    }
    give(answers, answered);
    if (tape)
        release(tape);
    release(row);
    return 0;
}
