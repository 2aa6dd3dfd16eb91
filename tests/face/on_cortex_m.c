/* The driver on a Cortex-M without a system: the script and the answers by semihosting, the start by examples/cortex-m4. */
#include "platform.h"
#include "semihosting.h"

size_t take(char *to, size_t room)
{
    static int input = -1;
    if (input < 0)
        input = semihost_open(SEMIHOST_INPUT);
    return semihost_move(SEMIHOST_READ, input, to, room);
}

void give(const char *from, size_t count)
{
    static int output = -1;
    if (output < 0)
        output = semihost_open(SEMIHOST_OUTPUT);
    if (semihost_move(SEMIHOST_WRITE, output, from, count) != count)
        semihost_exit(0);
}
