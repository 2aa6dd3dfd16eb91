// The bench program by hand in C11: a yardstick for the speed of the real one.
// It shares no code with it and is meant to be what a C programmer would write
// who wants it fast and still plain.

#include <errno.h>
#include <stdbool.h>
#include <stdint.h>
#include <stdlib.h>
#include <string.h>
#include <unistd.h>

enum {
    BLOCK = 65536,
    LINE_MAX_BYTES = 200,
    LIST_MAX = LINE_MAX_BYTES / 2,  // a list entry takes a space and a digit at least
    ARGUMENTS_MAX = 16,             // cells of a sample, bytes of a frame
    ANSWER_MAX = 32,                // no answer is longer, newline included
    BOARDS_MAX = 16,
    CELLS_MIN = 5,
    CELLS_MAX = 10,
};

enum { SCD = 1, OCD = 2, OV = 4, UV = 8, HOT = 16, DSG_ON = 64, CHG_ON = 128 };
enum { STOPS_DSG = UV | OCD | SCD | HOT, STOPS_CHG = OV | OCD | SCD | HOT };

// The bench opens stand-alone boards only. Its boards know host boards too, which share every step with them; garden boards have
// steps of their own, that no line reaches. Nor does one reach a listing of the journal that every board keeps.
enum { STAND_ALONE = 0, HOST = 1 };
enum { CLEAR_BIT = 1, DSG_BIT = 2, CHG_BIT = 4, CONTROL_MAX = 7 };

enum {
    CONTROL = 1,
    FIRST_SETTING = 6,
    LAST_SETTING = 10,
    SETTINGS = LAST_SETTING - FIRST_SETTING + 1,
    CYCLES = 11,
    PROGRAM = 0x41,
    CYCLES_MAX = 3,
    TALLIES = 5,
    TALLY_LOW = 16,
    TALLY_HIGH = 8,  // a high byte's register lies 8 above the low one's, as its bits do
    JOURNAL = 128,
};

enum {
    NO_RUN = -1,        // shorter than any run, so that it has not stood a zero delay either
    RUN_MAX = 8000001,  // past the longest delay: counting on would tell nothing more
};

// One line, taken apart. The list holds counts, cells or frame bytes.
struct line {
    char kind;
    int count;
    int32_t largest;  // of the list, kept while reading so that no second pass is needed
    int32_t board, elapsed, load, thermistor, shunt;
    int32_t list[LIST_MAX];
};

struct board {
    int cells;
    uint8_t working[SETTINGS], staged[SETTINGS];
    uint8_t cycles;
    uint8_t latches;
    uint8_t kind;
    uint8_t control;  // register 1
    uint16_t flags;   // bit 0 is cell 1
    uint16_t low, high;  // of the last sample, with its shunt below
    uint16_t tallies[TALLIES];  // of SCD, OCD, OV, UV and overtemperature
    int32_t ov_run[CELLS_MAX], uv_run[CELLS_MAX];
    int32_t ocd_run, scd_run;
    int32_t shunt;
    uint32_t samples;           // accepted ones
    uint32_t numbers[JOURNAL];  // the last latchings, in a ring: at which sample,
    uint8_t whats[JOURNAL];     // and the cause above the cell;
    uint8_t next, len;          // where the next one goes, and how many there are
};

static struct board stack[BOARDS_MAX];
static int boards;  // 0 before the first good opening

static uint8_t crc_table[16];  // what four shifts make of each half byte, moved to the upper half of a byte

static char out[BLOCK];
static size_t out_len;

static const int32_t ov_hysteresis[4] = {100, 200, 300, 0};
static const int32_t uv_hysteresis[4] = {200, 400, 800, 1200};
static const int32_t uv_delay[16] = {
    0, 1250, 2500, 5000, 10000, 15000, 20000, 30000,
    1000000, 2000000, 3000000, 4000000, 5000000, 6000000, 7000000, 8000000,
};

// ---- answers

static void flush(void)
{
    size_t done = 0;
    while (done < out_len) {
        ssize_t n = write(STDOUT_FILENO, out + done, out_len - done);
        if (n < 0 && errno == EINTR)
            continue;
        if (n <= 0)
            exit(1);
        done += (size_t)n;
    }
    out_len = 0;
}

// Where the next answer goes; it has room for any.
static char *answer_start(void)
{
    if (out_len > BLOCK - ANSWER_MAX)
        flush();
    return out + out_len;
}

static void answer_end(char *o)
{
    *o++ = '\n';
    out_len = (size_t)(o - out);
}

static inline char *put_text(char *o, const char *text)
{
    size_t n = strlen(text);
    memcpy(o, text, n);
    return o + n;
}

// No answer holds a number of more than four digits.
static inline char *put_number(char *o, unsigned v)
{
    if (v >= 1000)
        *o++ = (char)('0' + v / 1000);
    if (v >= 100)
        *o++ = (char)('0' + v / 100 % 10);
    if (v >= 10)
        *o++ = (char)('0' + v / 10 % 10);
    *o++ = (char)('0' + v % 10);
    return o;
}

static void refuse(unsigned number)
{
    answer_end(put_number(put_text(answer_start(), "no "), number));
}

// ---- reading a line

// These stop at the newline behind every line, so they need no length. NULL is
// malformed.
static inline const unsigned char *number(const unsigned char *p, int32_t *value)
{
    unsigned digit = *p - (unsigned)'0';
    if (digit > 9)
        return NULL;
    uint64_t v = digit;
    p++;
    if (v == 0) {
        *value = 0;
        return *p - (unsigned)'0' <= 9 ? NULL : p;
    }
    while ((digit = *p - (unsigned)'0') <= 9) {
        v = v * 10 + digit;
        if (v > INT32_MAX)
            return NULL;
        p++;
    }
    *value = (int32_t)v;
    return p;
}

static inline const unsigned char *field(const unsigned char *p, int32_t *value)
{
    return *p == ' ' ? number(p + 1, value) : NULL;
}

static inline const unsigned char *signed_field(const unsigned char *p, int32_t *value)
{
    if (p[0] != ' ' || p[1] != '-')
        return field(p, value);
    p = number(p + 2, value);
    if (!p || *value == 0)
        return NULL;
    *value = -*value;
    return p;
}

static inline const unsigned char *list(const unsigned char *p, struct line *l)
{
    int count = 0;
    int32_t largest = 0;
    while (*p == ' ') {
        p = number(p + 1, &l->list[count]);
        if (!p)
            return NULL;
        if (l->list[count] > largest)
            largest = l->list[count];
        count++;
    }
    l->count = count;
    l->largest = largest;
    return p;
}

// The line from p up to the newline at end; false if malformed.
static bool parse(const unsigned char *p, const unsigned char *end, struct line *l)
{
    if (end - p > LINE_MAX_BYTES)
        return false;
    l->kind = (char)*p;
    switch (*p++) {
    case 'S':
        return (p = field(p, &l->board)) && (p = field(p, &l->elapsed))
            && (p = field(p, &l->load)) && (p = field(p, &l->thermistor))
            && (p = signed_field(p, &l->shunt)) && (p = list(p, l))
            && p == end && l->count <= ARGUMENTS_MAX;
    case 'F':
        return (p = list(p, l)) && p == end && l->count <= ARGUMENTS_MAX && l->largest <= 255;
    case 'R':
        return p == end;
    case 'O':
        return (p = list(p, l)) && p == end;
    default:
        return false;
    }
}

// ---- opening

static void start_runs(struct board *b)
{
    for (int i = 0; i < CELLS_MAX; i++)
        b->ov_run[i] = b->uv_run[i] = NO_RUN;
    b->ocd_run = b->scd_run = NO_RUN;
}

static void open_stack(const struct line *l)
{
    if (l->count < 1 || l->count > BOARDS_MAX || l->largest > CELLS_MAX) {
        refuse(1);
        return;
    }
    for (int i = 0; i < l->count; i++)
        if (l->list[i] < CELLS_MIN) {
            refuse(1);
            return;
        }
    memset(stack, 0, sizeof stack);
    boards = l->count;
    for (int i = 0; i < boards; i++) {
        stack[i].cells = l->list[i];
        stack[i].kind = STAND_ALONE;
        stack[i].high = UINT16_MAX;  // no fault is over on a last sample such as this
        stack[i].shunt = INT32_MAX;
        start_runs(&stack[i]);
    }
    answer_end(put_text(answer_start(), "ok"));
}

// ---- samples

// The run of a condition that holds.
static inline int32_t next_run(int32_t run, int32_t elapsed)
{
    if (run == NO_RUN)
        return 0;
    run += elapsed;
    return run < RUN_MAX ? run : RUN_MAX;
}

// The shortest run that has stood a delay: one that is longer, but any where there is no delay.
static inline int32_t least_run(int32_t delay)
{
    return delay ? delay + 1 : 0;
}

static inline uint8_t next_latch(uint8_t latches, uint8_t fault, bool stood, bool lets_go)
{
    if (latches & fault)
        return lets_go ? (uint8_t)(latches & ~fault) : latches;
    return stood ? latches | fault : latches;
}

static unsigned status(const struct board *b)
{
    const unsigned may = b->kind == HOST ? b->control : DSG_BIT | CHG_BIT;
    unsigned value = b->latches;
    if (!(b->latches & STOPS_DSG) && (may & DSG_BIT))
        value |= DSG_ON;
    if (!(b->latches & STOPS_CHG) && (may & CHG_BIT))
        value |= CHG_ON;
    return value;
}

// Register 1 where these faults latch.
static unsigned forbidden(unsigned control, unsigned latching)
{
    if (latching & STOPS_DSG)
        control &= ~(unsigned)DSG_BIT;
    if (latching & STOPS_CHG)
        control &= ~(unsigned)CHG_BIT;
    return control;
}

// These faults latch, OV and UV by these cells: each is tallied and entered in the journal, the lowest bit first. It is out of line,
// since most samples latch nothing.
static __attribute__((noinline)) void keep(struct board *b, unsigned latching, unsigned over, unsigned under)
{
    for (; latching; latching &= latching - 1) {
        const unsigned cause = (unsigned)__builtin_ctz(latching), fault = 1u << cause;
        const unsigned cells = fault == OV ? over : fault == UV ? under : 0;
        if (b->tallies[cause] < UINT16_MAX)
            b->tallies[cause]++;
        b->numbers[b->next] = b->samples;
        b->whats[b->next] = (uint8_t)(cause << 4 | (cells ? (unsigned)__builtin_ctz(cells) + 1 : 0));
        b->next = (b->next + 1) % JOURNAL;
        b->len = (uint8_t)(b->len + (b->len < JOURNAL));
    }
}

// A flagged cell is left out exactly if one of the two above it was taken.
static unsigned bled(unsigned flags)
{
    unsigned taken = 0;
    if (flags)
        for (unsigned bit = 1u << (CELLS_MAX - 1); bit; bit >>= 1)
            if ((flags & bit) && !(taken & (bit << 1 | bit << 2)))
                taken |= bit;
    return taken;
}

static int32_t ov_mv(const uint8_t *settings)
{
    return 4150 + 50 * (settings[0] & 7);
}

static int32_t uv_mv(const uint8_t *settings)
{
    return 1400 + 100 * (settings[1] & 15);
}

static int32_t ocd_uv(const uint8_t *settings)
{
    return 10000 + 5000 * (settings[3] & 15);
}

static int32_t scd_uv(const uint8_t *settings)
{
    return 60000 + 5000 * (settings[4] & 15);
}

static void step(struct board *b, const struct line *l)
{
    const uint8_t *w = b->working;
    const int32_t elapsed = l->elapsed;

    const int32_t ov_level = ov_mv(w);
    const int32_t ov_low = ov_level - ov_hysteresis[w[0] >> 3 & 3];
    const int32_t ov_wait = least_run(500000 + 250000 * (w[0] >> 5));
    const int32_t uv_level = uv_mv(w);
    const int32_t uv_sum = uv_level + uv_hysteresis[w[1] >> 4 & 3];
    const int32_t uv_release = uv_sum < 3300 ? uv_sum : 3300;
    const int32_t uv_wait = least_run(uv_delay[w[3] >> 4]);

    // No OV level is below a UV level, so a cell is on one side at most. Which
    // cells lie low is gathered without a branch: it is hard to foretell where
    // that level is close to where cells usually are.
    const int cells = b->cells;
    unsigned stood = 0, uv_stood = 0, low = 0;
    int32_t least = INT32_MAX;
    for (int i = 0; i < cells; i++) {
        const int32_t mv = l->list[i];
        int32_t ov_run = NO_RUN, uv_run = NO_RUN;
        if (mv > ov_level) {
            ov_run = next_run(b->ov_run[i], elapsed);
            stood |= (unsigned)(ov_run >= ov_wait) << i;
        } else if (mv < uv_level) {
            uv_run = next_run(b->uv_run[i], elapsed);
            uv_stood |= (unsigned)(uv_run >= uv_wait) << i;
        }
        b->ov_run[i] = ov_run;
        b->uv_run[i] = uv_run;
        low |= (unsigned)(mv < ov_low) << i;
        least = mv < least ? mv : least;
    }
    b->flags = (uint16_t)((b->flags & ~low) | stood);
    b->low = (uint16_t)least;
    b->high = (uint16_t)l->largest;
    b->shunt = l->shunt;
    b->samples += b->samples < UINT32_MAX;

    const int32_t ocd_code = w[2] & 31;
    const int32_t ocd_wait = least_run(ocd_code < 16 ? 20000 * (ocd_code + 1) : 100000 * (ocd_code - 15));
    const int32_t ocd_level = ocd_uv(w);
    const int32_t scd_wait = least_run(60 * (w[4] >> 4));
    const int32_t scd_level = scd_uv(w);
    const bool ocd_over = l->shunt > ocd_level, scd_over = l->shunt > scd_level;
    b->ocd_run = ocd_over ? next_run(b->ocd_run, elapsed) : NO_RUN;
    b->scd_run = scd_over ? next_run(b->scd_run, elapsed) : NO_RUN;

    // a host clears these four itself
    const bool alone = b->kind != HOST, unloaded = alone && !l->load;
    uint8_t latches = b->latches;
    latches = next_latch(latches, OV, stood != 0, alone && l->largest < ov_low);
    latches = next_latch(latches, UV, uv_stood != 0, alone && least > uv_release);
    latches = next_latch(latches, OCD, b->ocd_run >= ocd_wait, unloaded && !ocd_over);
    latches = next_latch(latches, SCD, b->scd_run >= scd_wait, unloaded && !scd_over);
    const bool hot = l->thermistor < 975;
    latches = next_latch(latches, HOT, hot, !hot);
    const unsigned latching = latches & ~(unsigned)b->latches;
    if (!alone)
        b->control = (uint8_t)forbidden(b->control, latching);
    if (latching)
        keep(b, latching, stood, uv_stood);
    b->latches = latches;
}

static void sample(const struct line *l)
{
    if (l->board < 1 || l->board > boards) {
        refuse(2);
        return;
    }
    struct board *b = &stack[l->board - 1];
    if (l->count != b->cells) {
        refuse(3);
        return;
    }
    if (l->elapsed < 1 || l->elapsed > 100000) {
        refuse(4);
        return;
    }
    if (l->largest > 5000 || l->thermistor > 5000
        || l->shunt < -500000 || l->shunt > 500000 || l->load > 1) {
        refuse(5);
        return;
    }
    step(b, l);
    char *o = put_text(answer_start(), "st ");
    o = put_number(o, status(b));
    o = put_text(o, " bal ");
    answer_end(put_number(o, bled(b->flags)));
}

// ---- frames

static void make_crc_table(void)
{
    for (unsigned i = 0; i < 16; i++) {
        unsigned crc = i << 4;
        for (int k = 0; k < 4; k++)
            crc = crc & 0x80 ? crc << 1 ^ 0x07 : crc << 1;
        crc_table[i] = (uint8_t)crc;
    }
}

static uint8_t next_half(uint8_t crc)
{
    return (uint8_t)(crc << 4 ^ crc_table[crc >> 4]);
}

static uint8_t next_check(uint8_t crc, unsigned byte)
{
    return next_half(next_half((uint8_t)(crc ^ byte)));
}

static unsigned check_byte(unsigned address, unsigned reg, unsigned value)
{
    return next_check(next_check(next_check(0, address), reg), value);
}

static bool allowed_setting(unsigned reg, unsigned value)
{
    if (reg == 7)
        return value < 64;
    if (reg == 8)
        return value < 32;
    return true;
}

// The faults that are over on the last sample, by the levels of now.
static unsigned over_now(const struct board *b)
{
    const uint8_t *w = b->working;
    unsigned over = 0;
    if (b->high < ov_mv(w))
        over |= OV;
    if (b->low > uv_mv(w))
        over |= UV;
    if (b->shunt <= ocd_uv(w))
        over |= OCD;
    if (b->shunt <= scd_uv(w))
        over |= SCD;
    return over;
}

static void set_control(struct board *b, unsigned value)
{
    if (b->control & ~value & CLEAR_BIT)
        b->latches = (uint8_t)(b->latches & ~over_now(b));
    b->control = (uint8_t)value;
}

// Programs the board: 13 for staged levels that are crossed, 11 if it has no cycle left for a real change, or 0.
static unsigned program(struct board *b)
{
    if (ocd_uv(b->staged) >= scd_uv(b->staged))
        return 13;
    if (memcmp(b->staged, b->working, SETTINGS) == 0)
        return 0;
    if (b->cycles == CYCLES_MAX)
        return 11;
    memcpy(b->working, b->staged, SETTINGS);
    b->cycles++;
    start_runs(b);
    return 0;
}

// The number of the refusal, or 0 and the value for the reply.
static unsigned frame_act(struct board *b, bool write, unsigned reg, unsigned *value)
{
    const bool setting = reg >= FIRST_SETTING && reg <= LAST_SETTING, control = reg == CONTROL && b->kind == HOST;
    if (!write) {
        const unsigned tallied = (reg & ~(unsigned)TALLY_HIGH) - TALLY_LOW;
        unsigned kept;
        if (reg == 0)
            kept = status(b);
        else if (setting)
            kept = b->working[reg - FIRST_SETTING];
        else if (reg == CYCLES)
            kept = b->cycles;
        else if (control)
            kept = b->control;
        else if (tallied < TALLIES)
            kept = (uint8_t)(b->tallies[tallied] >> (reg & TALLY_HIGH));
        else
            return 9;
        if (*value != 0)
            return 10;
        *value = kept;
        return 0;
    }
    if (control) {
        if (*value > CONTROL_MAX)
            return 10;
        set_control(b, *value);
        return 0;
    }
    if (setting) {
        if (!allowed_setting(reg, *value))
            return 10;
        b->staged[reg - FIRST_SETTING] = (uint8_t)*value;
        return 0;
    }
    if (reg != CYCLES)
        return 9;
    if (*value != PROGRAM)
        return 10;
    const unsigned refusal = program(b);
    *value = b->cycles;
    return refusal;
}

// The bench always lends a whole reply, so refusal 7 can't come up.
static void frame(const struct line *l)
{
    if (l->count != 4) {
        refuse(6);
        return;
    }
    const unsigned address = (unsigned)l->list[0], reg = (unsigned)l->list[1];
    unsigned value = (unsigned)l->list[2];
    if (check_byte(address, reg, value) != (unsigned)l->list[3]) {
        refuse(8);
        return;
    }
    const int number = (int)(address >> 1);
    if (number < 1 || number > boards) {
        refuse(2);
        return;
    }
    const unsigned refusal = frame_act(&stack[number - 1], address & 1, reg, &value);
    if (refusal) {
        refuse(refusal);
        return;
    }
    char *o = put_text(answer_start(), "re ");
    o = put_number(o, address);
    *o++ = ' ';
    o = put_number(o, reg);
    *o++ = ' ';
    o = put_number(o, value);
    *o++ = ' ';
    answer_end(put_number(o, check_byte(address, reg, value)));
}

// ---- whole-stack reading

static void reading(void)
{
    unsigned latches = 0, pack = CHG_ON | DSG_ON;
    unsigned at_board = 0, at_cell = 0;
    for (int i = 0; i < boards; i++) {
        const struct board *b = &stack[i];
        latches |= b->latches;
        pack &= status(b);
        if (b->flags && !at_board) {
            at_board = (unsigned)i + 1;
            for (at_cell = 1; !(b->flags >> (at_cell - 1) & 1);)
                at_cell++;
        }
    }
    char *o = put_text(answer_start(), "ln ");
    o = put_number(o, latches != 0);
    o = put_text(o, " chg ");
    o = put_number(o, (pack & CHG_ON) != 0);
    o = put_text(o, " dsg ");
    o = put_number(o, (pack & DSG_ON) != 0);
    o = put_text(o, " at ");
    o = put_number(o, at_board);
    *o++ = ' ';
    answer_end(put_number(o, at_cell));
}

// ---- the program

static void act(const unsigned char *p, const unsigned char *end)
{
    static struct line l;
    if (!parse(p, end, &l)) {
        refuse(12);
        return;
    }
    if (l.kind == 'O') {
        open_stack(&l);
        return;
    }
    if (boards == 0) {
        refuse(1);
        return;
    }
    if (l.kind == 'S')
        sample(&l);
    else if (l.kind == 'F')
        frame(&l);
    else
        reading();
}

int main(void)
{
    // A line cut by the end of a block is moved to just before the next block,
    // so that every line lies in one piece. The byte behind is for the newline
    // that the last line may lack.
    static unsigned char in[LINE_MAX_BYTES + BLOCK + 1];
    unsigned char *const block = in + LINE_MAX_BYTES;
    size_t kept = 0;
    bool too_long = false;  // the cut line is over the limit and its bytes were let go

    make_crc_table();
    for (;;) {
        ssize_t n = read(STDIN_FILENO, block, BLOCK);
        if (n < 0 && errno == EINTR)
            continue;
        if (n < 0)
            return 1;
        if (n == 0)
            break;

        const unsigned char *p = block - kept, *from = block, *const end = block + n;
        const unsigned char *newline;
        while ((newline = memchr(from, '\n', (size_t)(end - from)))) {
            if (too_long)
                refuse(12);
            else
                act(p, newline);
            too_long = false;
            p = from = newline + 1;
        }
        kept = (size_t)(end - p);
        if (too_long || kept > LINE_MAX_BYTES) {
            too_long = true;
            kept = 0;
        }
        memmove(block - kept, p, kept);
        flush();
    }
    if (too_long) {
        refuse(12);
    } else if (kept) {
        *block = '\n';
        act(block - kept, block);
    }
    flush();
    return 0;
}
