/* Counts the instructions of each act, of the library and of its peer, on an emulated board without a system, and the bytes of
 * stack. The emulator's clock goes on by a fixed time at each instruction; a loop of a known length says how many make a tick.
 * Output as perf/face.c has it. With FIRMWARE defined: the bytes of stack that the firmware's main takes, and no more.
 */
#include "face_acts.h"

#include "board.h"

enum { CALLS = 512, LOOPS = 1 << 20, STACK = 4096 };

int firmware_main(void);

/* ---- what the peer calls of a C library, beside the copies of tests/face/arena.c */

__attribute__((no_builtin)) int memcmp(const void *one, const void *other, size_t bytes)
{
    const unsigned char *a = one, *b = other;
    for (size_t i = 0; i < bytes; i++)
        if (a[i] != b[i])
            return a[i] - b[i];
    return 0;
}

/* ---- text */

static void say(const char *text)
{
    size_t length = 0;
    while (text[length])
        length++;
    board_say(text, length);
}

static void say_number(uint32_t n)
{
    static const uint32_t places[] = {1000000, 100000, 10000, 1000, 100, 10, 1};
    char text[8];
    size_t length = 0;
    for (size_t i = 0; i < sizeof places / sizeof *places; i++) {
        char digit = '0';
        for (; n >= places[i]; n -= places[i])
            digit++;
        if (digit != '0' || length > 0 || places[i] == 1)
            text[length++] = digit;
    }
    board_say(text, length);
}

static void tell(const char *of, size_t one, size_t other)
{
    say(of);
    say(": ");
    say_number((uint32_t)one);
    say(" ");
    say_number((uint32_t)other);
    say("\n");
}

static void fail(const char *what)
{
    say(what);
    board_end(0);
}

/* ---- instructions */

static uint32_t ticks_of(act *one)
{
    const uint32_t from = board_ticks();
    for (int i = 0; i < CALLS; i++)
        one(i);
    return board_ticks() - from;
}

/* The ticks of a loop of 2 * LOOPS instructions. */
static uint32_t known_ticks(void)
{
    const uint32_t from = board_ticks();
    board_loop(LOOPS);
    return board_ticks() - from;
}

static uint32_t rounded(uint32_t n, uint32_t by)
{
    uint32_t q = 0;
    for (n += by / 2; n >= by; n -= by)
        q++;
    return q;
}

/* What an act takes beyond a call that does nothing. */
static uint32_t instructions(act *one)
{
    const uint32_t a_tick = rounded(2 * LOOPS, known_ticks());
    return rounded((ticks_of(one) - ticks_of(nothing)) * a_tick, CALLS);
}

static void measure(const char *of, const char *what, act *one, act *other)
{
    sum = 0;
    const uint32_t a = instructions(one), b = instructions(other);
    say(of);
    tell(what, a, b);
}

/* ---- bytes of stack: an act on a painted stack of its own */

static _Alignas(16) unsigned char painted[STACK];

static size_t depth(act *one)
{
    for (size_t i = 0; i < STACK; i++)
        painted[i] = 0x5a;
    board_call_on(painted + STACK, one);
    size_t untouched = 0;
    while (untouched < STACK && painted[untouched] == 0x5a)
        untouched++;
    return STACK - untouched;
}

#ifdef FIRMWARE
static void firmware(int i) { sum += (unsigned)(firmware_main() + i); }

int main(void)
{
    tell("stack of the firmware", depth(firmware), 0);
    return 0;
}
#else
int main(void)
{
    board_start();
    all_acts();
    all_stacks();
    tell("record", sizeof(adomvik_board), sizeof(struct peer_board));
    return 0;
}
#endif
