#include <mm.h>

/* Counts a visitor, and gives his number. */
long count(void) MM_DOOR(count);
