/* Tries to use blocks that are not his, and to leave a pointer in the one that is. */
#include "pool.h"
#include "say.h"

MM_THREAD(1, 1, -1);

static long own;

int main(void)
{
    long mine = get();
    for (long block = -1; block <= 2; block++)
        if (block != mine) {
            say_number(look(block, 1));
            say(" ");
        }
    put(mine, 0, (long)&own);
    say(__mm_op_isptr((void *)look(mine, 0)) ? "a pointer" : "a number");
    return 0;
}
