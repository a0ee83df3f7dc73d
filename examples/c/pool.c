/* A pool whose blocks are leased. No client ever has a pointer to a block, so a lease ends when the pool says so. A client
   is told apart by his slot, which he cannot choose. */
#include "pool.h"

#define BLOCKS 2
#define NUMBERS 4

static long blocks[BLOCKS][NUMBERS];
static long tenant[BLOCKS]; /* his slot and 1; 0 for a block that is free */

static int is_his(long block)
{
    return block >= 0 && block < BLOCKS && tenant[block] == __mm_op_self() + 1;
}

long get(void)
{
    for (long block = 0; block < BLOCKS; block++)
        if (!tenant[block]) {
            tenant[block] = __mm_op_self() + 1;
            return block;
        }
    return -1;
}

long put(long block, long at, long value)
{
    if (!is_his(block) || at < 0 || at >= NUMBERS)
        return -1;
    blocks[block][at] = mm_number(value);
    return 0;
}

long look(long block, long at)
{
    return is_his(block) && at >= 0 && at < NUMBERS ? blocks[block][at] : -1;
}

long give_back(long block)
{
    if (!is_his(block))
        return -1;
    for (int at = 0; at < NUMBERS; at++)
        blocks[block][at] = 0;
    tenant[block] = 0;
    return 0;
}
