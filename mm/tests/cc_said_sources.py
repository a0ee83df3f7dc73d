"""Sources in C of tests of what is said of faults: checks of Clang, nested calls, pointers without their tag."""

from __future__ import annotations

# What a sanitizer of Clang finds: the line, and what it is.
SANITIZED = {
    "a sum": (4, "an overflow of a sum", """#include <stdio.h>
volatile int big = 2147483647, one = 1;
static __attribute__((noinline)) int next(int n) { return n - one + one - one + one; }
int main(void) { int n = next(big) + one;
  printf("%d", n); return 0; }
"""),
    "a product after a sum": (3, "an overflow of a product", """volatile int big = 65536, few = 3;
int main(void) { int n = big + few;
  n = n * big;
  n = n + few; return n & 1; }
"""),
    "a shift": (3, "a shift by more than the bits of the number, or by less than 0", """volatile int one = 1, many = 40;
int main(void) {
  return one << many; }
"""),
    "a division": (2, "a division by zero, or one that overflows", """volatile int least = -2147483647 - 1, minus = -1;
int main(void) { return least / minus; }
"""),
    "a row of a matrix": (3, "an index outside of its array", """int rows[4][6]; volatile int at = 7;
int main(void) { rows[1][2] = 1;
  rows[2][at] = 2; return rows[3][1]; }
"""),
    "a null pointer": (2, "an access by a null pointer, or at no multiple of the alignment", """int *volatile none;
int main(void) { return *none; }
"""),
    "a negation": (2, "an overflow of a negation", """volatile int least = -2147483647 - 1;
int main(void) { return -least; }
"""),
}
# Functions that call each other, with variables of the same names.
NESTED = """static volatile int seven = 7; static int leaf(long *v, int n)
{
    v[3 + n] = 1; return n + (int)v[0];
}
static __attribute__((noinline)) int middle(long *w, int n)
{ long v[3] = {40, 41, w[0] - 28}; int a = seven, b = seven + 1, c = seven + 2, d = seven + 3, e = seven + 4, f = seven + 5;
    return leaf(v, n + 5) + (int)v[1] + n * a - b * c - d * e * f; }
int main(void)
{
    long v[3] = {70, 71, 72}; int n = seven;
    return middle(v, n - 3) + (int)v[2];
}
"""
# Pointers that became numbers before they are used: how, and where.
LOST = {
    "a mark": ("it was computed with at {room}/a.c:3", """#include <stdint.h>
struct node { uintptr_t next; long value; };
static __attribute__((noinline)) void link(struct node *a, struct node *b) { a->next = (uintptr_t)b | 1; }
static __attribute__((noinline)) long second(struct node *a) { return ((struct node *)(a->next & -2ul))->value; }
static struct node nodes[2] = {{0, 1}, {0, 2}};
int main(void) { link(nodes, nodes + 1);
  return second(nodes); }
"""),
    "one past the end": ("it left its object room at {room}/a.c:2 (one past the end is outside)", """static int room[64]; static int *sp;
static __attribute__((noinline)) void begin(int n) { sp = room + n; }
static __attribute__((noinline)) void push(int x) { *--sp = x; }
int main(void) { begin(64); push(1); return 0; }
"""),
    "one past the end, moved back and handed over": ("it left its object rows at {room}/a.c:2 (one past the end is outside)", """static char rows[4][8], (*last)[8]; volatile long four = 4;
static __attribute__((noinline)) void fill(void) { last = rows + four; }
static __attribute__((noinline)) int first(const char *text) { return *text; }
int main(void) { fill();
  return first(last[-1]); }
"""),
    "an element of a local": ("it left its object at {room}/a.c:3 (one past the end is outside)", """volatile long two = 2;
static __attribute__((noinline)) long last(long *end) { return end[-1]; }
static __attribute__((noinline)) long of(long *a) { return last(a + two); }
int main(void) { long a[2] = {two, 3}; return of(a); }
"""),
    "a block": ("it left its block of malloc (8 bytes, handed out at {room}/a.c:6) at {room}/a.c:7 (one past the end is outside)", """#include <stdlib.h>
#include <string.h>
struct student { char name[20]; int points[4]; } *volatile all;
int main(void)
{
  struct student *s = malloc(sizeof(s)); all = s;
  memset(all->points, 0, sizeof(s->points));
  return 0; }
"""),
    "bytes": ("it was copied in pieces at {room}/a.c:3", """volatile int eight = 8; static long x = 5; static long *volatile from = &x, *volatile to;
static __attribute__((noinline)) void copy(volatile char *to, volatile char *from) {
  for (int i = 0; i < eight; i++) to[i] = from[i];
}
int main(void) { copy((volatile char *)&to, (volatile char *)&from);
  return *to; }
"""),
    "a copy in the library": ("it was copied in pieces in memcpy", """#include <string.h>
volatile long eight = 8; static long x = 5; static long *from = &x; static char room[24]; static long *volatile to;
int main(void) { memcpy(room + 1, &from, eight); memcpy((void *)&to, room + 1, eight);
  return *to; }
"""),
}
