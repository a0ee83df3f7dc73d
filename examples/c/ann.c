/* A client of the store. */
#include "say.h"
#include "store.h"

MM_THREAD(0, 0, -1);

int main(void)
{
    void *key = open_drawer();
    put_in(key, 1234);
    say_number(look_in(key));
    return 0;
}
