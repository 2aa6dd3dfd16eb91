/* The console of a desk: standard output. */
#include <stdio.h>

#include "../console.h"

void say(const char *text)
{
    fputs(text, stdout);
}

void say_number(unsigned n)
{
    printf("%u", n);
}
