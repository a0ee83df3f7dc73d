"""Programs in C that the tests of `mm cc` translate and run, and what is said of each."""

from __future__ import annotations

HIDE = 'static void *hide(void *p) { __asm__ volatile("" : "+r"(p) : : "memory"); return p; }\nvolatile long zero;\n'
# Structures that are copied, and a field of which is looked at or changed: pointers in the rest stay pointers.
CUT = """#include <stdio.h>
struct rec { int id; const char *name; int age, score; };
struct odd { char tag; const char *name; short a; char z; };
struct two { long k; const char *s, *t; int last; int end; };
static __attribute__((noinline)) void sort(struct rec *a, int n)
{
    for (int i = 1; i < n; i++) {
        struct rec k = a[i];
        int j = i;
        for (; j > 0 && (a[j - 1].id > k.id || (a[j - 1].id == k.id && a[j - 1].score > k.score)); j--)
            a[j] = a[j - 1];
        a[j] = k;
    }
}
static __attribute__((noinline)) void sort2(struct odd *a, int n)
{
    for (int i = 1; i < n; i++) {
        struct odd k = a[i];
        int j = i;
        for (; j > 0 && (a[j - 1].tag > k.tag || (a[j - 1].tag == k.tag && a[j - 1].z > k.z)); j--)
            a[j] = a[j - 1];
        a[j] = k;
    }
}
static __attribute__((noinline)) void swap3(struct two *a, struct two *b, int up)
{
    struct two x = *a, y = *b;
    x.k += up; y.k -= up; x.end = y.end; y.end = up;
    *a = y; *b = x;
}
static __attribute__((noinline)) void third(struct rec *a, struct odd *o)
{
    struct rec x = *a; x.id++; x.score--; a[1] = x; x.age = 7; a[2] = x;
    struct odd p = *o; p.tag++; p.z = 'q'; o[1] = p; p.a++; o[2] = p;
}
int main(void)
{
    struct rec a[] = {{3, "three", 1, 2}, {1, "one", 5, 9}, {2, "two", 0, 0}, {1, "uno", 6, 3}};
    struct odd o[] = {{'c', "cc", 1, 'x'}, {'a', "aa", 2, 'y'}, {'a', "ab", 3, 'b'}, {'b', "bb", 4, 'c'}};
    struct two t[] = {{1, "s", "t", 2, 3}, {10, "u", "v", 20, 30}};
    sort(a, 4); sort2(o, 4); swap3(t, t + 1, 5);
    for (int i = 0; i < 4; i++) printf("%d %s %d %d, %c %s %d %c; ", a[i].id, a[i].name, a[i].age, a[i].score, o[i].tag, o[i].name, o[i].a, o[i].z);
    for (int i = 0; i < 2; i++) printf("%ld %s %s %d %d; ", t[i].k, t[i].s, t[i].t, t[i].last, t[i].end);
    third(a, o);
    for (int i = 0; i < 3; i++) printf("%d %s %d %d, %c %s %d %c; ", a[i].id, a[i].name, a[i].age, a[i].score, o[i].tag, o[i].name, o[i].a, o[i].z);
    return 0;
}
"""
# Programs and what they put out, at each level.
OUTPUTS = {
    "pointers from the middle of an array": ("27 94 203 203 139 139 5 8 1 237\n", """#include <stdio.h>
#define FAR __attribute__((noinline))
FAR int sum(int *mid, long n) { int s = 0; for (int *q = mid - n; q < mid + n; q++) s += *q; return s; }
FAR int back(int *mid, long n) { int s = 0; int *q = mid + n, *lo = mid - n; while (q > lo) { s = s * 3 + *q; if (s & 1) q--; else q -= 2; } return s; }
FAR int blur(const int *c, int r) { int s = 0; for (const int *p = c - r; p <= c + r; ++p) s += *p; return s; }
FAR int far(const int *c, long r) { int s = 0; for (const int *p = c - r; p <= c + r; ++p) s += *p; return s; }
FAR int ends(const int *c, int r) { int s = 0; const int *lo = c - r, *hi = c + r; for (const int *p = lo; p < hi; ++p) s += *p; return s; }
FAR int fixed(const int *c) { int s = 0; for (const int *p = c - 3; p < c + 3; ++p) s += *p; return s; }
FAR int near(const char *c) { const char *b = c; while (b > c - 3 && *b != ' ') b--; const char *e = c; while (e < c + 3 && *e != ' ') e++; return (int)(e - b); }
FAR long span(const char *mid) { const char *p = mid, *q = mid; while (*p != '(') p--; while (*q != ')') q++; return p < q ? q - p : -1; }
FAR int scan(const char *mid, const char c) { const char *p = mid; while (*p != '(') p--; for (; p < mid; p++) if (*p == c) return 1; return 0; }
FAR int kern(const int *c, const int *w, int n) { int s = 0; const int *p = c - n / 2, *end = p + n; while (p != end) s += *p++ * *w++; return s; }
int main(void) { int a[10], v[11], w[5] = {1, 2, 3, 2, 1}; for (int i = 0; i < 10; i++) a[i] = i; for (int i = 0; i < 11; i++) v[i] = i * i;
const char *t = "foo (bar baz) qux"; printf("%d %d %d %d %d ", sum(a + 5, 3), back(a + 5, 3), blur(v + 5, 3), far(v + 5, 3), ends(v + 5, 3));
printf("%d %d %ld %d %d\\n", fixed(v + 5), near(t + 6), span(t + 8), scan(t + 10, 'b'), kern(v + 5, w, 5)); return 0; }
"""),
    "unsigned sums with a great constant": ("90000001 90010000 cb\n", """#include <stdio.h>
__attribute__((noinline)) static unsigned long at(unsigned x) { return (x & 0xffff) + 0x90000001u; }
__attribute__((noinline)) static unsigned long code(unsigned char c) { return (unsigned char)(c % 10 + 203); }
int main(int argc, char **argv) { printf("%lx %lx %lx\\n", at(argc - 1), at(argc + 0xfffe), code(argc - 1)); return 0; }
"""),
    "alignments": ("13 0 0 0 0\n", """#include <stdio.h>
__attribute__((noinline)) static int pick(int k)
{ unsigned char r[19]; for (int i = 0; i < 19; i++) r[i] = i * k; unsigned char *p = r + 13, *q = r;
  for (int i = 0; i < 4; i++) q = p, p = r + 1; return p[13 - (p - r)]; }
static _Alignas(32) char g[40]; struct s { _Alignas(64) char c[70]; int k; };
__attribute__((noinline)) static unsigned long at(struct s x) { struct s *volatile p = &x; return (unsigned long)p & 63; }
__attribute__((noinline)) static unsigned long vla(int n) { _Alignas(32) char v[n]; char *volatile p = v; return (unsigned long)p & 31; }
int main(int argc, char **argv) { _Alignas(16) char b[20]; char *volatile p = b, *volatile q = g; static struct s x;
  printf("%d %lu %lu %lu %lu\\n", pick(1), (unsigned long)p & 15, (unsigned long)q & 31, at(x), vla(argc + 6)); return 0; }
"""),
    "what `main` is handed": ("1 [] 1 1; usage: x FILE 0", """#include <stdio.h>
__attribute__((noinline)) static int usage(char **argv) { return printf("usage: %s FILE ", argv[0]); }
int main(int argc, char **argv, char **environment)
{ printf("%d [%s] %d %d; ", argc, argv[0], argv[argc] == NULL, *environment == NULL);
  for (char **at = argv + 1; *at; at++) printf("never %s", *at);
  argv[0] = "x"; if (argc < 2) usage(argv); printf("%d", argv[1] != 0); return 0; }
"""),
    "constructors and destructors": ("early in main 7 last out ", """#include <stdio.h>
#include <stdlib.h>
static int k;
static void last(void) { printf("last "); }
__attribute__((constructor)) static void in(void) { printf("in "); k = 7; }
__attribute__((constructor(200))) static void early(void) { printf("early "); }
__attribute__((destructor)) static void out(void) { printf("out "); }
int main(void) { atexit(last); printf("main %d ", k); return 0; }
"""),
    "numbers in texts": ("9223372036854775807 34, -9223372036854775808 34, 18446744073709551615 34, 63 0, 22\n", """#include <errno.h>
#include <inttypes.h>
#include <stdio.h>
#include <stdlib.h>
static void of(const char *text) { errno = 0; long v = strtol(text, 0, 0); printf("%ld %d, ", v, errno); }
int main(void) { of("99999999999999999999"); of("-9223372036854775809"); errno = 0; uint64_t u = strtoul("18446744073709551616", 0, 10);
  printf("%" PRIu64 " %d, ", u, errno); of(" +077"); errno = 0; strtol("1", 0, 1); printf("%d\\n", errno); return 0; }
"""),
    "texts taken apart": ("a:1:2,b:3,|x y|", """#include <stdio.h>
#include <string.h>
int main(void) { char text[] = ";a=1,2;;b=3;", other[] = " x  y"; char *outer = 0, *inner;
  for (char *part = strtok_r(text, ";", &outer); part; part = strtok_r(0, ";", &outer)) {
    printf("%s", strtok_r(part, "=", &inner)); for (char *n; (n = strtok_r(0, ",", &inner));) printf(":%s", n); printf(","); }
  printf("|%s ", strtok(other, " ")); printf("%s|", strtok(0, " ")); if (strtok(0, " ") || strtok_r(0, ";", &outer)) printf("more"); return 0; }
"""),
    "sizes that no heap has": ("1 1 1 1 1\n", """#include <stdio.h>
#include <stdlib.h>
""" + HIDE + """int main(void) { printf("%d %d %d %d ", hide(malloc(zero - 1)) == 0, hide(malloc(zero - 1000)) == 0, hide(malloc(~0ul >> 1)) == 0, hide(calloc(zero - 1, 1)) == 0);
  char *p = hide(malloc(32000)); p[31999] = 1; printf("%d\\n", p[31999]); return 0; }
"""),
    "overflows of all widths": ("1 1 0 1 1 0 1\n", """#include <stdio.h>
volatile long most = 0x7fffffffffffffff; volatile unsigned long all = ~0ul;
int main(void) { long r; int i; __int128 w; unsigned __int128 u; signed char c;
  printf("%d %d %d %d %d %d %d\\n", __builtin_add_overflow(most, 1l, &r), __builtin_mul_overflow(most, all, &r),
         __builtin_mul_overflow(most, all, &w), __builtin_mul_overflow((__int128)most << 64, most, &w),
         __builtin_sub_overflow((unsigned __int128)most, (unsigned __int128)all, &u), __builtin_add_overflow(most, -1l, &r),
         __builtin_add_overflow((int)most, (short)-200, &c) | __builtin_add_overflow(most, 0l, &i)); return 0; }
"""),
    "overflows of two of 128 bits, of which one has a sign": ("0 -1 1 -2 0 5 1 1 0 18446744073709551611 0\n", """#include <stdio.h>
volatile unsigned __int128 few = 3, all = ~(unsigned __int128)0; volatile __int128 least = (__int128)1 << 127, minus = -4;
int main(void) { __int128 s; unsigned __int128 u; long l; unsigned __int128 five = few + 2;
  printf("%d ", __builtin_add_overflow(few, minus, &s)); printf("%ld ", (long)s);
  printf("%d ", __builtin_sub_overflow(all, minus + 5, &s)); printf("%ld ", (long)s);
  printf("%d ", __builtin_sub_overflow(five, minus + 4, &l)); printf("%ld ", l);
  printf("%d %d ", __builtin_add_overflow(few, minus, &u), __builtin_mul_overflow(few, least, &s));
  printf("%d ", __builtin_add_overflow(all, minus, &u)); printf("%lu ", (unsigned long)u);
  printf("%d\\n", __builtin_sub_overflow(least, minus + 4, &s)); return 0; }
"""),
    "long rows of bit-fields": ("7 -7 7000 -8 292 300 7000\n", """#include <stdio.h>
struct many { int a : 31, b : 31, c : 31, d : 31, e : 31, f : 31, g : 31, h : 31, i : 31, j : 31, k : 31, l : 31, m : 31, n : 31, o : 31, p : 31, q : 31;
  unsigned r : 7, s : 9, t : 16; };
static struct many m; volatile int seven = 7;
int main(void) { m.a = seven; m.j = -seven; m.q = seven * 1000; m.m = m.j - 1; m.s = 300; m.t = m.q; struct many n = m; n.p = m.m + n.s;
  printf("%d %d %d %d %d %d %d\\n", n.a, n.j, n.q, n.m, n.p, n.s, n.t); return 0; }
"""),
    "overflows of an int": ("843014659 3 0 281004886, -2147483648 -2147483648 -1073741824 -8 -1073741824 1, 48 -59 -82\n", """#include <stdio.h>
static volatile int start = 2147483647, one = 1; static const char *volatile word = "bird";
int main(void) { int h = 216; for (const char *s = word; *s; s++) h = (h ^ (unsigned char)*s) * 16777619;
  int n = start + one; long wide = n; printf("%d %d %d %d, %d %ld %d %d %d %d, ", h, h % 8, h < 0, h / 3, n, wide, n / 2, n % 10, n >> 1, n < 0);
  int seed = start; for (int i = 0; i < 3; i++) { seed = seed * 1103515245 + 12345; printf("%d%c", seed % 100, i < 2 ? ' ' : '\\n'); } return 0; }
"""),
    "a move from a narrower pointer to the same bytes": ("aabcdefg\n", """#include <mm.h>
#include <stdio.h>
#include <string.h>
static _Alignas(16) char text[16] = "abcdefgh";
int main(void) { memmove(text + 1, mm_slice(text, 8, MM_RO), 7); puts(text); return 0; }
"""),
    "structures that the optimiser cuts into parts": (
        "1 uno 6 3, a ab 3 b; 1 one 5 9, a aa 2 y; 2 two 0 0, b bb 4 c; 3 three 1 2, c cc 1 x; 5 u v 20 5; 6 s t 2 30; "
        "1 uno 6 3, a ab 3 b; 2 uno 6 2, b ab 3 q; 2 uno 7 2, b ab 4 q; ", CUT),
    "pointers with a number in their lower bits": ("775 780 1\n", """#include <stdint.h>
#include <stdio.h>
""" + HIDE + """static long load(long *p, int tag) { uintptr_t t = (uintptr_t)p | tag; return *(long *)(t & ~7ul) * 10 + (t & 7); }
static int late(long *p) { uintptr_t t; int seen = 0; for (int i = 0; i < 3; i++) { if (i) seen += (char *)(t & ~7ul) == (char *)p; t = (uintptr_t)p | 1; } return seen == 2; }
int main(void) { long x = 77, y = 78; printf("%ld %ld %d\\n", load(&x, 5), load(hide(&y), 0), late(&x)); return 0; }
"""),
    "blocks of malloc are cleared": ("0 0 1\n", """#include <stdio.h>
#include <stdlib.h>
#include <string.h>
""" + HIDE + """int main(void) { long dirty = 0, before = 0; for (int round = 0; round < 3; round++) { void *kept[40];
  for (int i = 0; i < 40; i++) { long *p = kept[i] = hide(malloc(24 + 1000 * (i & 1))); if (!p) return 1; for (int k = 0; k < 3; k++) dirty += p[k] != 0; before += !(i & 1) && p[zero - 1] != 0; memset(p, 7, 24); }
  for (int i = 0; i < 40; i++) free(kept[i]); } printf("%ld %ld %d\\n", dirty, before, hide(malloc(70000)) == 0); return 0; }
"""),
}
OVER = """#include <stdio.h>
#include <string.h>
char b[8]; const char *volatile word = "eight and more, and more than that"; volatile int count = 33;
static __attribute__((noinline)) void use(void)
{
    USED
    __asm__ volatile("" : : : "memory");
}
int main(void) { use(); return 0; }
"""
# With `--quarantine 0`: what each of these does with a pointer to a block that is gone, after USED.
GONE = """#include <setjmp.h>
#include <stdio.h>
#include <stdlib.h>
#include <string.h>
""" + HIDE + """struct node { struct node *next; long v[5]; };
static struct node *kept; static struct { char c; struct node *inner[2]; } keeper; static jmp_buf place;
static __attribute__((noinline)) struct node *made(void) { struct node *p = hide(malloc(sizeof *p)); p->v[2] = 77; return p; }
static __attribute__((noinline)) void deeper(struct node *p, long n) { long a[9]; hide(a); if (n) deeper(p, n - 1); else free(p); }
static __attribute__((noinline)) void other(void) { for (int i = 0; i < 50; i++) { long *p = hide(malloc(100)); p[3] = i; free(p); } }
int main(void) { struct node *a = made(), *b = made(); b->next = a; kept = a; keeper.inner[1] = a; long *middle = &a->v[2]; struct node *all[3] = {b, a, b}; hide(all);
  volatile long seen = 0;
"""
USED = {
    "a local": "free(a); other(); seen = a->v[2];",
    "a global": "free(a); other(); seen = kept->v[2];",
    "a field of a global": "free(a); seen = keeper.inner[1]->v[2];",
    "another block": "free(a); other(); seen = b->next->v[2];",
    "a pointer into the middle": "free(a); seen = *middle;",
    "an array of a caller": "deeper(a, 7); seen = all[1]->v[2];",
    "an array of variable length": "struct node *v[zero + 3]; v[2] = a; hide(v); free(a); seen = v[2]->v[2];",
    "a jump": "{ struct node *volatile c = a; if (!setjmp(place)) { free(a); longjmp(place, 1); } seen = c->v[2]; }",
    "the old block of realloc": "{ struct node *c = hide(realloc(a, 4000)); c->v[1] = 5; seen = a->v[2]; }",
    "a store": "free(a); a->v[2] = 5; hide(a);",
    "memcpy": "free(a); memcpy(b, a, 40);",
}
# More is handed out and freed than the heap of 4096 bytes has, while some blocks stay; these are right and reached.
HELD = "30 1 30", """#include <stdio.h>
#include <stdlib.h>
""" + HIDE + """struct node { struct node *next; long v; };
int main(void) { struct node *list = 0; long n = 0, sum = 0;
  for (int i = 0; i < 60; i++) { char *p = hide(malloc(300 + zero)); if (!p) return 1; p[299] = i; struct node *b = hide(malloc(sizeof *b)); if (!b) return 2;
    if (i & 1) b->next = list, b->v = 1, list = b; else { struct node *c = hide(malloc(16)); free(b); free(c); } free(p); }
  for (; list; list = list->next) n++, sum += list->v; printf("%ld %d %ld", n, hide(malloc(3000)) == 0, sum); return 0; }
"""
# A string constant that is turned around, where the optimiser knows which one it is.
REVERSED = """#include <string.h>

static void reverse(char *s) {
  for (char *p = s, *q = s + strlen(s) - 1; p < q; p++, q--) { char c = *p;
    *p = *q;
    *q = c; } }
int main(void) { char *word = "desserts"; reverse(word); return word[0]; }
"""
# Variables of one name in two functions, of which the inner one has no place any more when its call is carried out.
SAME_NAME = """#include <stdio.h>
struct value { int kind; long number; };
static __attribute__((noinline)) void show(const struct value *v, const struct value *other) {
    if (other[1].kind) printf("%s\\n", (const char *)v->number);
}
int main(void) {
    struct value v[2] = {{1, 11}, {2, 22}}, w[2] = {{4, 44}, {3, 333}};
    show(&v[1], w);
    return 0;
}
"""
# Programs that are refused, and what is said of them.
REFUSED = {
    "no input": (["{room}/a.c:2:25: error: `getchar` is used in `main`, and nothing defines it",
                  "    the machine has no input: put what the program reads into an array or a string"],
                 "#include <stdio.h>\nint main(void) { return getchar(); }\n"),
    "a header that is not there": (["{room}/a.c:1:10: fatal error: 'locale.h' file not found",
                                    "    there is one locale, that of C: leave `setlocale` out"],
                                   "#include <locale.h>\nint main(void) { return 0; }\n"),
    "a header of a system": (["{room}/a.c:1:10: fatal error: 'sys/wait.h' file not found",
                              "    below a program there is the machine alone, and no operating system: print with `printf`"],
                             "#include <sys/wait.h>\nint main(void) { return 0; }\n"),
    "a header elsewhere": (["{room}/a.c:1:10: fatal error: 'mine.h' file not found",
                            "    headers are looked for beside the file that includes them; `--clang -IDIR` names another folder"],
                           "#include \"mine.h\"\nint main(void) { return 0; }\n"),
    "a function of another file": (["{room}/a.c:2:25: error: `summary` is used in `main`, and nothing defines it",
                                    "    if another file defines `summary`, name that too: `mm cc {room}/a.c FILE.c > SOURCE.asm`"],
                                   "long summary(int n);\nint main(void) { return summary(3); }\n"),
    "a typing error": (["{room}/a.c:2:25: error: `strlem` is used in `main`, and nothing defines it",
                        "    do you mean `strlen`? Or if another file defines `strlem`, name that too: `mm cc {room}/a.c"],
                       "int strlem(const char *s);\nint main(void) { return strlem(\"text\"); }\n"),
    "floating point": (["{room}/a.c:1:58: error: floating point is left out in `area`"],
                       "static int area(int r) { volatile int d; d = (int)(3.1 * r); return d; }\n"
                       "int main(int n, char **v) { return area(n) > 3; }\n"),
    "assembler with places to go to": (["{room}/a.c:1: error: assembler text inside of a function is left out in `main`",
                                        "    `mm.h` names the machine's own operations, as `__mm_op_out`"],
                                       'int main(void) { __asm__ goto ("jmp %l0" : : : : out); return 1; out: return 2; }\n'),
    "a table of functions of another file": (["{room}/a.c:2: error: `nothing` is used in `table`, and nothing defines it",
                                              "    if another file defines `nothing`, name that too: `mm cc {room}/a.c FILE.c > SOURCE.asm`"],
                                             "int nothing(int n);\nstatic int (*const table[])(int) = {0, nothing};\n"
                                             "int main(int n, char **v) { return table[n](n); }\n"),
    "a variable argument of 128 bits": (["{room}/a.c:3:25: error: an integer of 128 bits among variable arguments is left out in `main`"],
                                        "static volatile __int128 x;\nint any(int n, ...) { return n; }\n"
                                        "int main(void) { return any(1, x); }\n"),
    "a table with floating point": (["{room}/a.c:1: error: floating point is left out in `table`", "    count in integers"],
                                    "static struct { int n; double d; } table[] = {{1, 1.5}, {2, 2.5}};\n"
                                    "int main(int n, char **v) { return table[n].n; }\n"),
    "assembler": (["mm: {room}/a.c: assembler text outside of functions is left out"],
                  '__asm__(".globl x");\nint main(void) { return 0; }\n'),
    "many segments": (["mm: the program: more than 256 segments: it has "],
                      "#include <stdio.h>\n" + "".join(f"volatile int g{at};\n" for at in range(260)) + "int main(void) { return "
                      + " + ".join(f"g{at}" for at in range(260)) + "; }\n"),
}
