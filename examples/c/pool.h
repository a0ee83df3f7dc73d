#include <mm.h>

/* A pool of blocks, each of four numbers. Who gets a block has a lease: he uses the block through these doors, and nobody
   else does. Each gives -1 for a block that is not his. */
long get(void) MM_DOOR(get);
long put(long block, long at, long value) MM_DOOR(put);
long look(long block, long at) MM_DOOR(look);
long give_back(long block) MM_DOOR(give_back);
