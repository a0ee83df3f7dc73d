/* The library, as one file. */
#include "support.c"
#include "memory.c"
#include "string.c"
#include "print.c"
#include "allocate.c"
#include "general.c"
#include "domain.c"
