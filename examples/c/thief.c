/* Goes through the gate once, and then tries to read what stands behind it. */
#include "gate.h"
#include "say.h"

MM_THREAD(1, 1, -1);

int main(void)
{
    say_number(count());
    say(" ");
    const long *inside = (const long *)(void *)count;
    return inside[0];
}
