"""Programs in C that are stopped, and what is said of each: in their own code, and in a function of the library."""

from __future__ import annotations

from mm.tests.cc_sources import HIDE

# Programs that are stopped, and what is said of it.
STOPPED = {
    "a function of the library": ("fault 3 Bounds at {room}/a.c:6, in strcpy: b[8] of 8 bytes", "0", """#include <string.h>
char b[8];

int main(void)
{
    strcpy(b, "eight and more");
    return 0;
}
"""),
    "an element": ("fault 3 Bounds at {room}/a.c:3: a[9] of int[4], 16 bytes", "1", """int a[4];
volatile int zero;
static __attribute__((noinline)) int leaf(int *p, int i) { return p[i]; }
int main(void) { return leaf(a, zero + 9); }
"""),
    "a stack": ("the stack is full: deep has no room for its variables", "1", """
static __attribute__((noinline)) long deep(long n) { volatile char text[64]; text[n & 63] = n; return n <= 0 ? 0 : deep(n - 1) + text[n & 7]; }
int main(void) { return deep(100000); }
"""),
    "one past the end": ("it left its object room (one past the end is outside)", "1", """static int room[64];
static int *sp = room + 64;
static __attribute__((noinline)) void push(int x) { *--sp = x; }
int main(void) { push(1); return 0; }
"""),
    "one past the end of a block, in a structure": (
        "fault 1 NotPointer at {room}/a.c:3: these are the bits of a pointer, which is now a number: it left its block of malloc "
        "(16 bytes, handed out at {room}/a.c:4) at {room}/a.c:4 (one past the end is outside)", "1", """#include <stdlib.h>
struct span { char *begin, *end; };
static __attribute__((noinline)) int last(struct span *s) { return s->end[-1]; }
int main(void) { struct span s; s.begin = malloc(16); s.begin[15] = 'p'; s.end = s.begin + 16; return last(&s); }
"""),
    "an array of a length below 0": ("fault 3 Bounds at {room}/a.c:2: of wants more for its variables than any stack has: is the length of an array "
                                     "below 0, or far too great?", "1", """volatile int length = -2;
static __attribute__((noinline)) int of(int n) { char part[n]; char *volatile p = part; p[0] = 1; return p[0]; }
int main(void) { return of(length); }
"""),
    "an array of a long length below 0": ("fault 3 Bounds at {room}/a.c:2: of wants more for its variables than any stack has", "0", """volatile long length = -2;
static __attribute__((noinline)) int of(long n) { char part[n]; char *volatile p = part; p[0] = 1; return p[0]; }
int main(void) { return of(length); }
"""),
    "a long array of a length that a stack can have": ("of 65536; `--stack 18` makes it larger", "1", """volatile int length = 100000;
static __attribute__((noinline)) int of(int n) { char part[n]; char *volatile p = part; p[0] = 1; return p[0]; }
int main(void) { return of(length); }
"""),
    "what the optimiser takes for impossible": ("fault 11 Trap at {room}/a.c:4: a place that C says is never reached: something on the way is not defined by C", "1", """struct city { const char *name; int people; };
static struct city cities[] = {{"Bern", 134}, {"Basel", 173}, {"Chur", 38}, {"Genf", 203}};
int main(void) { int sum = 0;
  for (struct city *c = cities; c != cities + 4; c += sizeof(struct city)) sum += c->people;
  return sum; }
"""),
    "a second free": ("fault 11 Trap at {room}/a.c:7, in free: `free` of what is not a block of malloc, or was freed before", "0",
                      """#include <stdlib.h>
int main(void)
{
    char *p = malloc(20);
    free(p);

    free(p);
}
"""),
    "a null pointer": ("fault 1 NotPointer at {room}/a.c:2: a null pointer", "0", """volatile long *volatile p;
int main(void) { return *p; }
"""),
    "malloc without room": ("fault 1 NotPointer at {room}/a.c:2: a null pointer; before, `malloc` had no room for 80000 bytes: `--heap 18` makes its heap larger",
                            "0", """#include <stdlib.h>
int main(void) { int *row = malloc(20000 * sizeof *row); row[0] = 1; return row[0]; }
"""),
    "malloc of more than there is": ("a null pointer; before, `malloc` had no room for 800000 bytes, which no heap has", "1", """#include <stdlib.h>
""" + HIDE + """int main(void) { free(hide(malloc(9))); long *row = hide(malloc(800000 + zero)); row[zero + 1] = 1; return row[0]; }
"""),
    "a null pointer after malloc": ("NotPointer at {room}/a.c:2: a null pointer  ", "0", """#include <stdlib.h>
int main(void) { int *row = malloc(8), *volatile none = 0; row[0] = 1; return *none; }
"""),
    "a string constant": ('fault 2 Perm at {room}/a.c:2: a store into the string constant "desserts", which is read-only', "0",
                          """static __attribute__((noinline)) void turn(char *s) {
  *s = 'D'; }
int main(void) { turn("desserts"); return 0; }
"""),
    "a long string constant": ('a store into the string constant "one\\n two three four five six seven eight" .., which is read-only', "0",
                               """char *volatile s = "one\\n two three four five six seven eight nine ten";
int main(void) { s[20] = 0; return 0; }
"""),
    "a constant without a name": ("a store into a constant, which is read-only", "0", """static const long *volatile p = (const long[]){1, 2, 3};
int main(void) { ((long *)p)[1] = 3; return 0; }
"""),
    "a constant": ("fault 2 Perm at {room}/a.c:2: a store into `table`, which is constant", "1", """static const int table[5] = {1, 2, 3, 4, 5}; const int *volatile p = table;
int main(void) { ((int *)p)[3] = 7; return 0; }
"""),
    "code": ("fault 2 Perm at {room}/a.c:2: a store into the code of `leaf`", "1", """static __attribute__((noinline)) int leaf(int n) { return n + 1; } int (*volatile f)(int) = leaf;
int main(void) { *(long *)f = 7; return f(2); }
"""),
    "a call of data": ("fault 2 Perm at {room}/a.c:2: a call of `numbers`, which is not a function", "1", """static long numbers[8]; long *volatile f = numbers;
int main(void) { numbers[2] = 5; ((void (*)(void))f)(); return numbers[2]; }
"""),
    "a call of a number": ("fault 1 NotPointer at {room}/a.c:2: a call of 1234567 0x12d687, which is a number and no pointer", "1", """volatile long number = 1234567;
int main(void) { ((void (*)(void))number)(); return 0; }
"""),
    "a number": ("fault 1 NotPointer at {room}/a.c:2: 1234567 0x12d687, which is a number and no pointer", "1", """volatile int number = 1234567;
int main(void) { return *(long *)(long)number; }
"""),
    "a null function": ("fault 1 NotPointer at {room}/a.c:3: a call of a null pointer", "0", """typedef void action(void);
action *volatile table[3];
int main(void) { table[1](); return 0; }
"""),
    "a text that is none": ("fault 1 NotPointer at {room}/a.c:3, in printf: ", "1", """#include <stdio.h>
volatile long number = 1234567;
int main(void) { printf("%s is the text, of %d\\n", (char *)number, 3); return 0; }
"""),
    "an element before a block": (
        "fault 3 Bounds at {room}/a.c:6: t->slots[-3], byte -24 of a block of malloc, which has 64 bytes from there on", "1", """#include <stdlib.h>
struct table { long size; long *slots; };
volatile int at;
static __attribute__((noinline)) long find(struct table *t, int at, int more)
{
    while (!t->slots[at]) t->slots[at] = 1, at -= more;
    return t->size;
}
int main(void) { struct table t = {8, calloc(8, 8)}; return find(&t, at, 3); }
"""),
    "an element of a block": ("fault 3 Bounds at {room}/a.c:2: v[6], byte 24 of a block of malloc, which has 24 bytes from there on", "0", """#include <stdlib.h>
int main(void) { int *v = malloc(6 * sizeof *v); for (int i = 0; i <= 6; i++) v[i] = i; return v[3]; }
"""),
    "before a block": ("byte -57 of a block of malloc, which has 72 bytes from there on", "1", """#include <stdlib.h>
""" + HIDE + """int main(void) { char *p = hide(malloc(72)); p[zero - 57] = 1; hide(p); return 0; }
"""),
}
# A use of the library over the end of `b`, in line 6, at each level.
IN_LIBRARY = {
    "strcpy": "strcpy(b, word);", "strcat": "strcat(b, word);", "memcpy": "memcpy(b, word, count);", "memset": "memset(b, count, 33);",
    "puts": "memset(b, 'a', 8); puts(b);", "printf": 'memset(b, 65, 8); printf("%s", b);', "sprintf": 'sprintf(b, "%s", word);',
}
