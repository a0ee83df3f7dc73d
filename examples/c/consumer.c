/* Takes letters out of the ring, and waits where it is empty. */
#include "ring.h"
#include <stdio.h>

MM_THREAD(1, 1, -1);

int main(void)
{
    for (int i = 0;; i++) {
        long letter = mm_take(&ring[i % ROOM]);
        if (!letter)
            return 0;
        putchar(letter);
    }
}
