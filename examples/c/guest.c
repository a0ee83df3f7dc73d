/* Goes through the gate three times. */
#include "gate.h"
#include "say.h"

MM_THREAD(0, 0, -1);

int main(void)
{
    for (int i = 0; i < 3; i++) {
        say_number(count());
        say(" ");
    }
    return 0;
}
