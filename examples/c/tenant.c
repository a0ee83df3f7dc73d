/* Keeps a number in a block of the pool, and gives the block back. */
#include "pool.h"
#include "say.h"

MM_THREAD(0, 0, -1);

int main(void)
{
    long mine = get();
    put(mine, 1, 1234);
    say_number(look(mine, 1));
    say(" ");
    say_number(give_back(mine));
    say(" ");
    say_number(look(mine, 1));
    return 0;
}
