/* The console by semihosting. A board of your own puts its serial port here. */
#include "../console.h"
#include "semihosting.h"

static void say_bytes(const char *text, size_t length)
{
    static int output = -1;
    if (output < 0)
        output = semihost_open(SEMIHOST_OUTPUT);
    semihost_move(SEMIHOST_WRITE, output, text, length);
}

void say(const char *text)
{
    size_t length = 0;
    while (text[length])
        length++;
    say_bytes(text, length);
}

void say_number(unsigned n)
{
    char text[10];
    size_t at = sizeof text;
    do {
        text[--at] = (char)('0' + n % 10);
        n /= 10;
    } while (n > 0);
    say_bytes(text + at, sizeof text - at);
}
