/* What a Cortex-M needs in front of main: the vector table, and memory as C wants it. */
#include <stdint.h>

#include "semihosting.h"

int main(void);
void reset(void);

/* where things lie, by link.ld */
extern uint32_t data_start[], data_end[], data_stored[], bss_start[], bss_end[], stack_top[];

void reset(void)
{
    const uint32_t *from = data_stored;
    for (volatile uint32_t *to = data_start; to < data_end; to++)
        *to = *from++;
    for (volatile uint32_t *to = bss_start; to < bss_end; to++)
        *to = 0;
    semihost_exit(main() == 0);
}

/* a fault ends the run; a board of your own would switch both pins off here */
static void fault(void)
{
    semihost_exit(0);
}

__attribute__((section(".vectors"), used)) static void *const vectors[] = {
    stack_top, (void *)reset, (void *)fault, (void *)fault,
};
