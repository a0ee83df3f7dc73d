/* A name is read into a record. Behind the name stands who may enter. */
#include "say.h"

char name[8];
long allowed = 0;

static void read_name(const char *from)
{
    for (int i = 0; from[i]; i++)
        name[i] = from[i];
}

int main(void)
{
    read_name("Carter");
    say(allowed ? "the door opens\n" : "the door stays shut\n");
    read_name("AAAAAAAA\001");
    say(allowed ? "the door opens\n" : "the door stays shut\n");
    return 0;
}
