#include <mm.h>

/* The name of a door. With -DOWNER=ann it ends in _ann: a store that ann alone can enter. */
#ifdef OWNER
#define NAMED(name, owner) MM_DOOR(name##_##owner)
#define OF(name, owner) NAMED(name, owner)
#define STORE_DOOR(name) OF(name, OWNER)
#else
#define STORE_DOOR(name) MM_DOOR(name)
#endif

/* A drawer that belongs to whoever holds its key. */
void *open_drawer(void) STORE_DOOR(open_drawer);
long put_in(void *key, long value) STORE_DOOR(put_in);
long look_in(void *key) STORE_DOOR(look_in);
