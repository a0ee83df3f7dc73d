/* Does three things that fault. Its handler is slot 1. */
#include "say.h"
#include <mm.h>

MM_THREAD(0, 0, 1);

static long table[4] = {10, 20, 30, 40};

int main(void)
{
    volatile unsigned long nothing = 0;
    volatile long at = 4;
    say_number(100 / nothing);
    say("\n");
    __mm_op_trap(7);
    table[at] = 50;
    say("never said\n");
    return table[0];
}
