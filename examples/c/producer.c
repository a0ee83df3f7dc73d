/* Puts letters into the ring, and waits where it is full. */
#include "ring.h"

MM_THREAD(0, 0, -1);

long ring[ROOM];

int main(void)
{
    const char *text = "guarded pointers in C\n";
    for (int i = 0;; i++) {
        mm_put(&ring[i % ROOM], text[i]);
        if (!text[i])
            return 0;
    }
}
