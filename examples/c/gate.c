/* A counter behind a gate. Who enters it has no pointer to the word that it counts in. */
#include "gate.h"

static long visitors;

long count(void)
{
    return ++visitors;
}
