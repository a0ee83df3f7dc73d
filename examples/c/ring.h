#include <mm.h>

#define ROOM 4

/* Words that are empty at first. A word that is full waits for the consumer, an empty one for the producer. */
extern long ring[ROOM] MM_EMPTY(ring);
