/* A store for several clients. A client is told apart by his key, a pointer that nothing can be done with but to
   compare it. */
#include "store.h"

#define DRAWERS 8

static long drawers[DRAWERS];
static int used;

/* The drawer of a key; none for anything else that a client may hand over. */
static long *drawer_of(void *key)
{
    for (int i = 0; i < used; i++)
        if (__mm_op_eqw(key, mm_key(&drawers[i])))
            return &drawers[i];
    return 0;
}

void *open_drawer(void)
{
    return used < DRAWERS ? mm_key(&drawers[used++]) : 0;
}

long put_in(void *key, long value)
{
    long *drawer = drawer_of(key);
    if (!drawer)
        return -1;
    *drawer = mm_number(value);
    return 0;
}

long look_in(void *key)
{
    long *drawer = drawer_of(key);
    return drawer ? *drawer : -1;
}
