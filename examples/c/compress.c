/* A compressor: repeated pieces become pairs of a distance and a length. What was packed is unpacked and compared. */
#include "say.h"
#include <string.h>

#define MOST 250

static const char text[] =
    "a pointer has a permission, a segment and an address; a pointer that leaves its segment is no pointer, and a "
    "pointer that has no permission to load is a pointer that cannot load.";
static unsigned char packed[512], unpacked[sizeof text];

static int pack(const unsigned char *from, int size, unsigned char *to)
{
    int at = 0, made = 0;
    while (at < size) {
        int best = 0, where = 0;
        for (int back = 1; back <= at && back < 256; back++) {
            int same = 0;
            while (same < MOST && at + same < size && from[at + same] == from[at + same - back])
                same++;
            if (same > best)
                best = same, where = back;
        }
        if (best > 3) {
            to[made++] = 0;
            to[made++] = where;
            to[made++] = best;
            at += best;
        } else {
            to[made++] = from[at++];
        }
    }
    return made;
}

static int unpack(const unsigned char *from, int size, unsigned char *to)
{
    int made = 0;
    for (int at = 0; at < size;) {
        if (from[at]) {
            to[made++] = from[at++];
            continue;
        }
        for (int i = 0; i < from[at + 2]; i++, made++)
            to[made] = to[made - from[at + 1]];
        at += 3;
    }
    return made;
}

int main(void)
{
    int size = pack((const unsigned char *)text, sizeof text - 1, packed);
    int back = unpack(packed, size, unpacked);
    say_number(sizeof text - 1);
    say(" bytes become ");
    say_number(size);
    say(back == sizeof text - 1 && !memcmp(text, unpacked, back) ? ", and come back whole\n" : ", and are lost\n");
    return 0;
}
