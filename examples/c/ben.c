/* Another client, who tries to look into drawers that are not his: with the bits of his key, which are no key any
   more. */
#include "say.h"
#include "store.h"

MM_THREAD(1, 1, -1);

int main(void)
{
    void *key = open_drawer();
    put_in(key, 77);
    say_number(look_in(key));
    volatile unsigned long bits = (unsigned long)key;
    for (long by = -8; by <= 8; by += 8) {
        say(" ");
        say_number(look_in((void *)(bits + by)));
    }
    return 0;
}
