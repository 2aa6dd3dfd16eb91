/* Where the firmware's lines go: desk/console.c has it by the C library, cortex-m4/console.c by semihosting. */
#ifndef CONSOLE_H
#define CONSOLE_H

void say(const char *text);
void say_number(unsigned n);

#endif
