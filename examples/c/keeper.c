/* Serves the faults of other slots. A division by zero is done again with 1, a trap is answered, and at anything else
   the slot is ended. */
#include "say.h"
#include <mm.h>

MM_THREAD(1, 1, -1);

enum { DIV_ZERO = 9, TRAP = 11 };

/* The register that an instruction takes as its second operand. The pointer to where a slot stands may be read. */
static int second_operand(const void *at)
{
    return *(const unsigned long *)at >> 44 & 15;
}

/* Serves an event. Gives whether the slot goes on. */
static int serve(const struct mm_event *event)
{
    long slot = MM_SLOT(*event);
    say("slot ");
    say_number(slot);
    switch (MM_CAUSE(*event)) {
    case DIV_ZERO:
        say(" divides by zero: by 1 instead\n");
        mm_set_register(slot, second_operand(event->at), (void *)1);
        mm_resume(slot, MM_RETRY);
        return 1;
    case TRAP:
        say(" calls: it goes on\n");
        mm_resume(slot, MM_SKIP);
        return 1;
    default:
        say(" has fault ");
        say_number(MM_CAUSE(*event));
        say(": it is ended\n");
        mm_resume(slot, MM_KILL);
        return 0;
    }
}

int main(void)
{
    struct mm_event event;
    do
        mm_event(&event);
    while (serve(&event));
    return 0;
}
