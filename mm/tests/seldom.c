/* Forms of C that few programs have, each with a line of what comes of it: the machine prints what the host prints. PART
   says which of them are translated. */
#include <limits.h>
#include <setjmp.h>
#include <stdarg.h>
#include <stdatomic.h>
#include <stdint.h>
#include <stdio.h>
#include <stdlib.h>
#include <string.h>

#define FAR __attribute__((noinline)) static
typedef unsigned long ul;

#if PART == 0
/* Objects that a loop makes anew, pointers of the turn before, numbers of pointers, pointers that stand anywhere. */
struct node { struct node *next; long v; };
static long a[4] = {11, 22, 33, 44};
static char buf[80];
static _Atomic(long *) head = a;
static _Atomic(long) number = 5;
uintptr_t kept;

FAR long listed(int count)
{
    struct node *first = 0;
    long s = 0;
    for (int i = 0; i < count; i++) {
        struct node *x = __builtin_alloca(sizeof *x);
        x->next = first, x->v = i + 1, first = x;
    }
    for (; first; first = first->next)
        s = s * 10 + first->v;
    return s;
}

FAR long chars(int count)
{
    char *all[8];
    long s = 0;
    for (int i = 0; i < count; i++)
        for (int k = (all[i] = __builtin_alloca(5), 0); k < 5; k++)
            all[i][k] = i + k;
    for (int i = 0; i < count; i++)
        for (int k = 0; k < 5; k++)
            s = s * 3 + all[i][k];
    return s;
}

FAR long before(struct node *p, volatile int *some)
{
    struct node *last;
    long s = 0;
    for (; p; last = p, p = p->next, *some = 1)
        if (*some)
            s = s * 10 + last->v;
    return s;
}

FAR long ends(struct node **all, int n, volatile int *some)
{
    struct node *last;
    long s = 0;
    for (int i = 0; i < n; i++) {
        struct node *p = all[i];
        if (*some)
            s = s * 10 + last->v + p->v;
        while (p->next)
            p = p->next;
        last = p, *some = 1;
    }
    return s;
}

FAR void keep(void) { kept = (uintptr_t)&a[1]; }
FAR long of(uintptr_t n) { return *(long *)n; }
FAR uintptr_t third(void) { return (uintptr_t)(a + 3); }
FAR char *up(void) { return (char *)(((uintptr_t)buf + 15) & ~(uintptr_t)15); }
FAR char *up_in_steps(char *p) { uintptr_t u = (uintptr_t)p; u += 15; u &= ~(uintptr_t)15; return (char *)u; }
FAR char *down(char *p, int way)
{
    uintptr_t u = (uintptr_t)p;
    return way == 0 ? (char *)(u - (u & 7)) : way == 1 ? (char *)(u - u % 8) : way == 2 ? (char *)(u >> 3 << 3) :
        way == 3 ? (char *)(u / 8 * 8) : way == 4 ? (char *)((u | 7) - 7) : (char *)(u ^ (u & 7));
}
FAR long at(long i) { return *(long *)((uintptr_t)a + i * 8); }
FAR long by_numbers(long *p, long *e)
{
    long s = 0;
    for (uintptr_t u = (uintptr_t)p; u < (uintptr_t)e; u += sizeof *p)
        s = s * 3 + *(long *)u;
    return s;
}
FAR long exchanged(long i) { return atomic_exchange(&head, a + i) - a + *atomic_load(&head); }
FAR long changed(long *from, long i) { long *p = from; return atomic_compare_exchange_strong(&head, &p, a + i) * 100 + *head; }
FAR long of_number(void) { number += 3, number -= 1; return number; }
FAR long stepped(void) { head++; long *p = atomic_fetch_add(&head, 1); head--; return *p * 100 + *head + of_number(); }

struct __attribute__((packed)) pair { int x, y; char *p; };
struct __attribute__((packed)) odd { char *p; char c; };
FAR char *in_pair(struct pair *p) { return p->p; }
FAR void set_pair(struct pair *p, char *text) { p->p = text; }
FAR char *in_odd(struct odd *p, long i) { return p[i].p; }
FAR void eight(char *to, const char *from) { memcpy(to, from, 8); }
FAR char *out_of(const char *from) { char *p; memmove(&p, from, sizeof p); return p; }
FAR long anywhere(char *p, long i) { long x; memcpy(&x, p + i, 8); x += 0x0102030405060708; memcpy(p + i + 1, &x, 8); return x; }

int main(void)
{
    struct node l[5], *all[3] = {l + 2, l + 3, l + 4};
    int some = 0, others = 0;
    for (int i = 0; i < 5; i++)
        l[i] = (struct node){i < 4 ? l + i + 1 : 0, i + 1};
    printf("%ld %ld %ld %ld\n", listed(5), chars(6), before(l, &some), ends(all, 3, &others));
    keep();
    printf("%ld %ld %ld %ld %ld\n", *(long *)kept, of((uintptr_t)(a + 2)), *(long *)third(), at(2), by_numbers(a, a + 3));
    for (int i = 0; i < 80; i++)
        buf[i] = i;
    char *q = up() + 13, *r = up_in_steps(buf + 1);
    printf("%d %d %d\n", (int)((uintptr_t)q & 15), (int)((uintptr_t)r & 15), *r == r - buf);
    for (int way = 0; way < 6; way++)
        printf("%d%c", *down(q, way) == q[-5], way < 5 ? ' ' : '\n');
    printf("%ld %ld %ld %ld\n", exchanged(2), changed(a + 2, 1), changed(a, 0), stepped());
    struct pair x = {1, 2, "text"}, *h = malloc(2 * sizeof *h);
    static _Alignas(8) struct odd o[2];
    char room[40] __attribute__((aligned(8)));
    set_pair(h + 1, in_pair(&x)), o[0].p = "odd";
    eight(room, (char *)&h[1].p);
    printf("%s %s %s\n", in_pair(h + 1), in_odd(o, 0), out_of(room));
    for (int i = 0; i < 40; i++)
        room[i] = i * 7;
    for (int i = 0; i < 24; i++)
        printf("%lx%c", anywhere(room, i), i % 6 < 5 ? ' ' : '\n');
    return 0;
}

#elif PART == 1
/* Numbers of 128 bits, and such fields in structures that are aligned less. */
typedef __int128 s128; typedef unsigned __int128 u128;
static void put(const char *n, u128 x) { printf("%s %lx:%lx\n", n, (ul)(x >> 64), (ul)x); }
FAR s128 smax(s128 a, s128 b) { return a > b ? a : b; }
FAR s128 smin(s128 a, s128 b) { return a < b ? a : b; }
FAR u128 umax(u128 a, u128 b) { return a > b ? a : b; }
FAR u128 umin(u128 a, u128 b) { return a < b ? a : b; }
FAR s128 abs_(s128 a) { return a < 0 ? -a : a; }
FAR s128 nabs(s128 a) { return a < 0 ? a : -a; }
FAR u128 rot(u128 a, int n) { n &= 127; return a << n | a >> (-n & 127); }
FAR u128 rotr(u128 a, int n) { n &= 127; return a >> n | a << (-n & 127); }
FAR u128 rot8(u128 a) { return a << 8 | a >> 120; }
FAR u128 rot64(u128 a) { return a << 64 | a >> 64; }
FAR u128 rot100(u128 a) { return a << 100 | a >> 28; }
FAR u128 shld(u128 a, u128 b) { return a << 13 | b >> 115; }
FAR u128 sat(u128 a, u128 b) { u128 r; return __builtin_add_overflow(a, b, &r) ? ~(u128)0 : r; }
FAR u128 sat2(u128 a, u128 b) { u128 r = a + b; return r < a ? ~(u128)0 : r; }
FAR u128 subs(u128 a, u128 b) { return a > b ? a - b : 0; }
FAR u128 subs2(u128 a, u128 b) { u128 r; return __builtin_sub_overflow(a, b, &r) ? 0 : r; }
FAR s128 ssat(s128 a, s128 b) { s128 r; return __builtin_add_overflow(a, b,
    &r) ? (b < 0 ? (s128)1 << 127 : ~((s128)1 << 127)) : r; }
FAR int pop(u128 x) { int n = 0; for (; x; x &= x - 1) n++; return n; }
FAR int pop2(u128 x) { return __builtin_popcountl(x) + __builtin_popcountl(x >> 64); }
FAR int clz(u128 x) { return (ul)(x >> 64) ? __builtin_clzl(x >> 64) : 64 + __builtin_clzl((ul)x | 1); }
FAR int ctz(u128 x) { int n = 0; if (!x) return 128; while (!(x & 1)) x >>= 1, n++; return n; }
FAR int ctz2(u128 x) { int n = 0; while (n < 128 && !(x >> n & 1)) n++; return n; }
FAR int log2_(u128 x) { int n = 0; while (x >>= 1) n++; return n; }
FAR u128 swap(u128 x) { return (u128)__builtin_bswap64(x) << 64 | __builtin_bswap64(x >> 64); }
FAR u128 swap2(u128 x) { u128 r = 0; for (int i = 0; i < 16; i++) r = r << 8 | (x >> 8 * i & 255); return r; }
FAR u128 rev(u128 x) { u128 r = 0; for (int i = 0; i < 128; i++) r = r << 1 | (x >> i & 1); return r; }
FAR int sw(s128 x) { switch (x) { case 0: return 1; case -1: return 2; case (s128)1 << 64: return 3;
    case ((s128)5 << 64) + 7: return 4; case -((s128)1 << 100): return 5; case 77: return 6; default: return 7; } }
FAR int cmp(s128 a, s128 b) { return (a > b) - (a < b); }
FAR int ucmp(u128 a, u128 b) { return (a > b) - (a < b); }
FAR int even(u128 a, u128 b) { return (a & b) == 0 && (a | b) != 0; }
FAR s128 half(s128 a) { return a / 2 + a % 7 - (a >> 3) + a / -3; }
FAR u128 uhalf(u128 a) { return a / 2 + a % 7 - (a >> 3) + a / 1000000007u; }
FAR s128 div_(s128 a, s128 b) { return b ? a / b : 0; }
FAR s128 mod(s128 a, s128 b) { return b ? a % b : 0; }
FAR u128 udiv(u128 a, u128 b) { return b ? a / b : 0; }
FAR u128 umod(u128 a, u128 b) { return b ? a % b : 0; }
FAR s128 pick(int c, s128 a, s128 b) { return c > 3 ? a : b; }
FAR s128 fill(int n) { s128 x = 1; for (int i = 1; i <= n; i++) x = x * i - (x >> 70); return x; }
FAR s128 neg(s128 a) { return -a; }
FAR u128 inv(u128 a) { return ~a; }
FAR int sign(s128 a) { return a < 0; }
FAR s128 ext(int a) { return a; }
FAR u128 zext(unsigned char a) { return (u128)a << 120 | a; }
FAR s128 shifts(s128 a, int n) { return (a << (n & 127)) ^ (a >> (n & 127)) ^ (s128)((u128)a >> (n & 127)); }
FAR _Bool odd(u128 x) { return x & 1; }
FAR int nz(u128 x) { return !!x; }
FAR int top(u128 x) { return x >> 127; }
struct p { long a; s128 b; char c; }; struct __attribute__((packed)) q { long a; s128 b; char c; };
    struct __attribute__((packed)) r { char c; s128 b; }; struct __attribute__((packed, aligned(8))) s8 { long a;
    s128 b; };
#pragma pack(8)
struct t8 { long a; u128 b; int c; };
#pragma pack()
static struct p gp[2] = {{1, 2, 3}, {4, (s128)5 << 90, 6}};
    static struct q gq[2] = {{1, 2, 3}, {4, (s128)5 << 90, 6}};
    static struct s8 gs[3] = {{1, 2}, {3, (s128)9 << 70}, {5, -6}};
    static struct t8 gt[2] = {{1, (u128)3 << 66, 2}, {7, 8, 9}};
FAR s128 in(struct p *p, struct q *q, struct s8 *s, struct t8 *t, long i) { p[i].b += p[i].a; q[i].b += q[i].c;
    s[i].b += s[i].a; t[i].b += t[i].c; return p[i].b ^ q[i].b * 3 ^ s[i].b * 5 ^ t[i].b * 7; }
FAR struct s8 give(struct s8 x, struct t8 t) { x.a++; x.b -= t.c; x.b ^= t.b; return x; }
FAR s128 many(char a, s128 b, short c, s128 d, int e, s128 f, long g, s128 h) {
    return a + b * 3 + c * 5 + d * 7 + e * 11 + f * 13 + g * 17 + h * 19; }
int main(void)
{
    u128 v[] = {0, 1, 2, (u128)1 << 63, ~0ul, (u128)1 << 64, (u128)1 << 127, ~(u128)0,
    ((u128)0x0123456789abcdef << 64) | 0xfedcba9876543210, -(u128)77, ((u128)1 << 127) - 1, ((u128)5 << 64) + 7, 77,
    -((u128)1 << 100), 0xfffffffffffffff0ul, (u128)0x8000000000000000ul << 3};
    int n = sizeof v / sizeof *v;
    for (int i = 0; i < n; i += 5) {
        u128 a = v[i];
        printf("-- %d: %d %d %d %d %d %d %d %d %d %d %d\n", i, pop(a), pop2(a), clz(a), ctz(a), ctz2(a), log2_(a),
    sw(a), sign(a), odd(a), nz(a), top(a));
        put("abs", abs_(a)); put("nabs", nabs(a)); put("swap", swap(a) ^ swap2(a) * 3); put("rev", rev(a));
    put("half", half(a)); put("uhalf", uhalf(a)); put("neg", neg(a) ^ inv(a) * 5);
    put("rots", rot8(a) ^ rot64(a) * 3 ^ rot100(a) * 5);
        for (int j = i % 7; j < n; j += 7) {
            u128 b = v[j], h = 0;
            h = h * 31 + smax(a, b); h = h * 31 + smin(a, b); h = h * 31 + umax(a, b); h = h * 31 + umin(a, b);
    put("max", h);
            h = sat(a, b); h = h * 31 + sat2(a, b); h = h * 31 + subs(a, b); h = h * 31 + subs2(a, b);
    h = h * 31 + ssat(a, b); put("sat", h);
            h = shld(a, b); h = h * 31 + rot(a, j * 9); h = h * 31 + rotr(a, j * 9 + 1);
    h = h * 31 + shifts(a, j * 9 + 5); put("rot", h);
            h = cmp(a, b); h = h * 31 + ucmp(a, b); h = h * 31 + even(a, b); h = h * 31 + pick(i + j, a, b);
    put("cmp", h);
            if (!(b == ~(u128)0)) { h = div_(a, b); h = h * 31 + mod(a, b); h = h * 31 + udiv(a, b);
    h = h * 31 + umod(a, b); put("div", h); }
        }
    }
    put("fill", fill(40)); put("ext", ext(-5) ^ zext(200));
    put("in", in(gp, gq, gs, gt, 1)); put("in", in(gp, gq, gs, gt, 0));
    printf("%d %d %d %d %d\n", (int)sizeof(struct p), (int)sizeof(struct q), (int)sizeof(struct r),
    (int)sizeof(struct s8), (int)sizeof(struct t8));
    struct s8 y = give(gs[1], gt[0]); put("give", y.b); printf("%ld\n", y.a);
    put("many", many(1, -2, 3, (s128)4 << 64, 5, -6, 7, 8)); struct r z[3] = {{1, 2}, {3, -4}, {5, (s128)1 << 101}};
    put("r", z[1].b * z[2].b + z[2].c);
    return 0;
}
#elif PART == 2
/* Vectors. */
typedef int v4 __attribute__((vector_size(16))); typedef unsigned u4 __attribute__((vector_size(16)));
    typedef signed char c16 __attribute__((vector_size(16)));
    typedef unsigned short h8 __attribute__((vector_size(16))); typedef long l2 __attribute__((vector_size(16)));
    typedef short s4 __attribute__((vector_size(8))); typedef unsigned char b8 __attribute__((vector_size(8)));
    typedef long l4 __attribute__((vector_size(32))); typedef int x3 __attribute__((ext_vector_type(3)));
FAR u4 rot(u4 x) { return x << 7 | x >> 25; }
FAR u4 rotv(u4 x, u4 n) { return x << (n & 31) | x >> (-n & 31); }
FAR v4 maxv(v4 a, v4 b) { v4 c = a > b; return (a & c) | (b & ~c); }
FAR v4 emax(v4 a, v4 b) { return __builtin_elementwise_max(a, b); }
FAR u4 emin(u4 a, u4 b) { return __builtin_elementwise_min(a, b); }
FAR v4 eabs(v4 a) { return __builtin_elementwise_abs(a); }
FAR void cabs_(c16 *a) { *a = __builtin_elementwise_abs(*a); }
FAR int rmax(v4 a) { return __builtin_reduce_max(a); }
FAR unsigned rmin(u4 a) { return __builtin_reduce_min(a); }
FAR v4 arith(v4 a, v4 b) { return (a + b) * (a - b) ^ (a & b) | ~a % (b | 1) + a / (b | 1) - (a << (b & 7)) +
    (a >> 3); }
FAR void harith(h8 *p, h8 *q) { h8 a = *p, b = *q;
    *p = (a + b) * (a - b) ^ a / (b | 1) ^ a % (b | 1) ^ (a >> (b & 15)) ^ (a << (b & 15)); }
FAR l2 larith(l2 a, l2 b) { return a * b + (a < b) - (a == b) * 3 + (a >> 5) / (b | 1); }
FAR void carith(c16 *p, c16 *q) { c16 a = *p, b = *q; *p = a * b + (a < b) - (a >= b) * 3 + (a >> 2); }
FAR v4 shuf(v4 a, v4 b) { return __builtin_shufflevector(a, b, 7, 0, 5, 2); }
FAR s4 conv(v4 a) { return __builtin_convertvector(a, s4); }
FAR l4 convl(v4 a) { return __builtin_convertvector(a, l4); }
FAR int at(v4 a, int i) { return a[i]; }
FAR v4 set(v4 a, int i, int x) { a[i] = x; return a; }
FAR x3 three(x3 a, int i) { a.yz = a.xy; a[i]++; return a * 2; }
FAR l2 cast(v4 a) { return (l2)a; }
FAR long cast8(b8 a) { return (long)a; }
FAR int any(v4 a, v4 b) { v4 c = a == b; return (c[0] | c[1] | c[2] | c[3]) != 0; }
FAR v4 neg(v4 a) { return -a + (a == 0); }
FAR u4 umul(u4 a) { return a * 0x9e3779b1u + 7; }
static v4 g[3] = {{1, 2, 3, 4}, {-5, 6, -7, 8}};
    static c16 cg = {1, -2, 3, -4, 5, -6, 7, -8, 9, -10, 11, -12, 13, -14, 15, -128};
static void put(v4 a) { printf("%x %x %x %x\n", a[0], a[1], a[2], a[3]); }
int main(void) { v4 a = {0x12345678, -1, 0x80000000, 7}, b = {3, -2, 0x7fffffff, 7}; put((v4)rot((u4)a));
    put((v4)rotv((u4)a, (u4)b)); put(maxv(a, b)); put(emax(a, b)); put((v4)emin((u4)a, (u4)b)); put(eabs(b));
    c16 cc = cg; cabs_(&cc); put((v4)cc); printf("%x %x\n", rmax(a), rmin((u4)a)); put(arith(a, b));
    h8 hh = (h8)a, hk = (h8)b; harith(&hh, &hk); put((v4)hh); put((v4)larith((l2)a, (l2)b)); c16 cd = (c16)a;
    carith(&cd, &cg); put((v4)cd); put(shuf(a, b)); s4 s = conv(a); printf("%d %d\n", s[0], s[3]); l4 l = convl(a);
    printf("%lx %lx\n", l[1], l[2]); for (int i = 0; i < 4; i++) { printf("%x ", at(a, i)); put(set(b, i, 99)); }
    x3 t = {1, 2, 3}; t = three(t, 1); printf("%d %d %d\n", t.x, t.y, t.z); put((v4)cast(a));
    printf("%lx %d %d\n", cast8((b8)s), any(a, b), any(a, -a)); put(neg(b)); put((v4)umul((u4)a));
    g[2] = g[0] * g[1]; put(g[2]); return 0; }
#elif PART == 3
/* Jumps, calls, shifts, counts of bits. */

FAR int sw1(int x) { switch (x) { case INT_MIN: return 1; case INT_MAX: return 2; case -1: return 3;
    case 0: return 4; case 5 ... 9: return 5; case 100000 ... 200000: return 6; default: return 7; } }
FAR int sw2(long x) { switch (x) { case LONG_MIN: return 1; case LONG_MIN + 1: return 2; case LONG_MIN + 2: return 8;
    case LONG_MIN + 3: return 9; case LONG_MIN + 4: return 10; case LONG_MAX: return 3; default: return 4; } }
FAR int sw3(unsigned char x) { switch (x) { case 250: return 1; case 251: return 2; case 252: return 3;
    case 253: return 4; case 254: return 5; case 255: return 6; case 0: return 7; } return x; }
FAR int sw4(signed char x) { switch (x) { case -128: return 1; case -127: return 2; case -126: return 3;
    case -3: case -2: return 4; case 127: return 5; } return x * 2; }
FAR int sw5(unsigned x) { int r = 0; switch (x) { case 0xfffffffe: r++; case 0xffffffff: r += 2; case 0: r += 4;
    break; case 1: r = 9; case 3: case 7: r *= 3; default: r += 100; } return r; }
FAR int sw6(ul x) { switch (x) { case 1ul << 63: return 1; case ~0ul: return 2; case 3: return 3;
    case 1ul << 32: return 4; } return 0; }
FAR int sw7(_Bool b) { switch (b) { case 1: return 5; case 0: return 6; } return 7; }
FAR const char *sw8(int x) { switch (x) { case 0: return "zero"; case 1: return "one"; case 2: return "two";
    case 3: return "three"; case 4: return "four"; case 5: return "five"; case 6: return "six"; } return "many"; }
FAR int sw9(int x) { switch (x) { case 1: case 4: case 9: case 16: case 25: case 36: return 1; default: return 0; } }
FAR int sw10(int x) { int r; switch (x & 7) { default: case 1: case 2: r = x ? 3 : 4; } return r; }
FAR long duff(const char *p, int n) { long s = 0; int k = (n + 3) / 4; switch (n % 4) { case 0: do {
    s = s * 3 + *p++; case 3: s = s * 3 + *p++; case 2: s = s * 3 + *p++; case 1: s = s * 3 + *p++; }
    while (--k > 0); } return s; }
FAR long go(const char *p) { static void *const to[] = {&&a, &&b, &&c, &&end}; long s = 1, t = 2; const char *q = p;
    goto *to[*p - 'a']; a: s = s * 3 + t; p++; goto *to[*p - 'a']; b: t = s + t; p++; goto *to[*p - 'a']; c: {
    long x = s; s = t; t = x; } p++; goto *to[*p - 'a']; end: return s * 1000 + t + (p - q); }
FAR long sel(int c, long a, char b, const char *p, const char *q) { long s = c ? a : b;
    const char *r = c > 2 ? p : c < -2 ? q + 1 : p + 2; _Bool z = c & 1 ? a > 3 : b;
    return s + *r + z * 1000 + (c ? -1 : 1u) + (z ? 10 : 20); }
FAR int logic(int a, int b, int c) { return (a && b) + (a || c) * 2 + !(a && (b || c)) * 4 + (a < b && b < c) * 8 +
    ((a ^ b) < 0) * 16 + (!a == !b) * 32 + (a & b && b | c) * 64; }
static jmp_buf env; static int deep; FAR void leap(int n) { volatile long pad[5]; pad[n % 5] = n;
    if (n) leap(n - 1), deep += pad[n % 5]; else longjmp(env, 42); }
FAR long jump(int a, long b, const char *p) { volatile int k = 0; volatile char t[11]; int r; t[3] = a;
    if ((r = setjmp(env)) == 0) { k = a; leap(7); } else if (r < 45) { k += r; t[4] = k; longjmp(env, r + 1); }
    return r * 1000 + k + t[3] * 7 + t[4] + b + *p; }
FAR long jump2(int n) { jmp_buf inner; volatile int i; volatile long s = 0; for (i = 0; i < n; i++) {
    int r = setjmp(inner); if (r < i) { s = s * 3 + r; longjmp(inner, r + 1); } s += i * 100; } return s; }
FAR ul ack(ul m, ul n) { return m ? n ? ack(m - 1, ack(m, n - 1)) : ack(m - 1, 1) : n + 1; }
FAR int pr(int); static int (*fp[4])(int); FAR int f0(int x) { return x + 1; }
FAR int f1(int x) { return x * 2; }
FAR int pr(int x) { return fp[x & 1](x); }
FAR int kr(a, b, c) char a; short b; unsigned char c; { return a * 10000 + b * 100 + c; }
FAR int noproto() { return 5; }
typedef int fn(); FAR int callf(fn *f, int a, long b) { return f(a, b); }
FAR int two(int a, long b) { return a - b; }
FAR long nine(char a, short b, int c, long d, unsigned char e, unsigned short f, unsigned g, ul h, _Bool i,
    signed char j, const char *k) { return a + b * 2 + c * 3 + d * 5 + e * 7 + f * 11 + (long)g * 13 + h * 17 + i *
    19 + j * 23 + *k; }
FAR unsigned char r8(int x) { return x; }
FAR signed char rs8(int x) { return x; }
FAR unsigned short r16(int x) { return x; }
FAR short rs16(int x) { return x; }
FAR _Bool rb(int x) { return x; }
FAR unsigned r32(long x) { return x; }
FAR int rs32(long x) { return x; }
FAR int sat(int a, int b) { int r; return __builtin_add_overflow(a, b, &r) ? a < 0 ? INT_MIN : INT_MAX : r; }
FAR unsigned char usat(unsigned char a, unsigned char b) { return a + b > 255 ? 255 : a + b; }
FAR unsigned subs(unsigned a, unsigned b) { return a > b ? a - b : 0; }
FAR short ssub(short a, short b) { int r = a - b; return r > 32767 ? 32767 : r < -32768 ? -32768 : r; }
FAR int bit(unsigned x) { return __builtin_popcount(x) + __builtin_clz(x | 1) * 40 + __builtin_ctz(x | 1u << 31) *
    1700 + __builtin_parity(x) * 99999 + __builtin_ffs(x) * 3; }
FAR long bitl(ul x) { return __builtin_popcountl(x) + __builtin_clzl(x | 1) * 70 + __builtin_ctzl(x | 1ul << 63) *
    5000 + __builtin_parityl(x) * 999999 + __builtin_ffsl(x) * 3 + ((long)__builtin_clrsbl(x) << 40) +
    ((long)__builtin_clrsb(x) << 50); }
FAR ul rev(ul x) { return __builtin_bitreverse64(x) ^ __builtin_bitreverse32(x) * 3ul ^ __builtin_bitreverse16(x) *
    5ul ^ __builtin_bitreverse8(x) * 7ul ^ __builtin_bswap64(x) ^ __builtin_bswap32(x) * 11ul ^
    __builtin_bswap16(x) * 13ul; }
FAR ul rot(ul x, int n) { return __builtin_rotateleft64(x, n) ^ __builtin_rotateright64(x,
    n + 3) * 3 ^ __builtin_rotateleft32(x, n) * 5ul ^ __builtin_rotateright32(x, n) * 7ul ^ __builtin_rotateleft16(x,
    n) * 11ul ^ __builtin_rotateright16(x, n) * 13ul ^ __builtin_rotateleft8(x, n) * 17ul ^ __builtin_rotateright8(x,
    n) * 19ul; }
FAR long sh(long x, int n) { return (x << (n & 63)) ^ (x >> (n & 63)) ^ (int)((int)x << (n & 31)) ^ ((int)x >> (n &
    31)) ^ (long)((unsigned)x >> (n & 31)) ^ ((short)x >> (n & 15)) ^ ((unsigned char)x << (n & 7)) ^
    (signed char)(x << (n & 7)) ^ ((ul)x >> (-n & 63)); }
FAR long ext(long x) { return (signed char)x + (unsigned char)x * 3 + (short)x * 5 + (unsigned short)x * 7 +
    (long)(int)x * 11 + (long)(unsigned)x * 13 + (int)(signed char)(x >> 3) * 17 +
    (unsigned char)(signed char)(x >> 5) * 19 + (long)(unsigned short)(short)x * 23; }
FAR long rank(const int *p, const int *q, const int *r) {
    return (p < q) + (p <= r) * 2 + (q > r) * 4 + (q - p) * 8 + (r - q) * 100 + (p == r - 3) * 10000 +
    ((ul)p < (ul)r) * 20000 + (p + 2 > q - 1) * 40000; }
FAR long walk(int *p, int *e) { long s = 0; int *q = p, *r = e; while (q != r) { if ((r - q) & 1) s = s * 3 + *q++;
    else s = s * 5 + *--r; if (q > r) return -1; } for (q = e; q-- > p;) s ^= *q; for (r = p - 0; r < e;
    r += 2) s += *r; return s; }
FAR int *pick(int **all, int n) { int *best = all[0]; for (int i = 1; i < n; i++) { int *p = all[i];
    best = *p > *best ? p : best; } return best; }
FAR long mixp(int *p, int n) { int *a = p, *b = 0; for (int i = 0; i < n; i++) { if (i & 1) { int *t = a;
    a = b ? b + 1 : p; b = t; } else a++; } return (a - p) * 100 + (b ? b - p : 50) + *a; }
int main(void) { int xs[] = {INT_MIN, INT_MIN + 1, -100, -3, -2, -1, 0, 1, 2, 3, 4, 5, 7, 9, 10, 16, 25, 36, 100,
    127, 128, 250, 255, 256, 99999, 100000, 150000, 200000, 200001, INT_MAX - 1, INT_MAX};
    long ls[] = {LONG_MIN, LONG_MIN + 1, LONG_MIN + 3, LONG_MIN + 5, -1, 0, 3, 1l << 32, LONG_MAX,
    0x123456789abcdef0, -0x123456789abcdef, 0x8000, 0x80, 0x7fff8000, 0xffffffff, 0x80000000};
    int n = sizeof xs / sizeof *xs, m = sizeof ls / sizeof *ls;
  for (int i = 0; i < n; i++) printf("%d: %d %d %d %d %d %d %s %d %d\n", xs[i], sw1(xs[i]), sw3(xs[i]), sw4(xs[i]),
    sw5(xs[i]), sw7(xs[i]), sw9(xs[i]), sw8(xs[i]), sw10(xs[i]), bit(xs[i]));
  for (int i = 0; i < m; i++) { ul h = 0; for (int k = 0; k < 70; k++) h = h * 31 + rot(ls[i], k) + sh(ls[i], k);
    printf("%lx: %d %d %lx %lx %lx %lx\n", ls[i], sw2(ls[i]), sw6(ls[i]), bitl(ls[i]), rev(ls[i]), h, ext(ls[i])); }
  for (int i = 0; i < n; i++) { ul h = 0; for (int k = 0; k < n;
    k++) h = h * 31 + sat(xs[i], xs[k]) + usat(xs[i], xs[k]) * 3 + subs(xs[i], xs[k]) * 5ul + ssub(xs[i],
    xs[k]) * 7 + logic(xs[i], xs[k], xs[(i + k) % n]); printf("%lx ", h); } printf("\n");
  printf("%ld %ld\n", duff("abcdefghijk", 11), duff("abcdefghijk", 8)); printf("%ld %ld\n", go("abcbcad"), go("d"));
    for (int c = -4; c < 5; c++) printf("%ld ", sel(c, c * 3, c + 7, "pqrs", "tuvw")); printf("\n");
    printf("%ld %ld %d\n", jump(3, 4, "x"), jump2(5), deep); printf("%ld\n", ack(2, 5)); fp[0] = f0, fp[1] = f1;
    printf("%d %d\n", pr(4), pr(5)); printf("%d %d %d\n", kr(-1, -300, 250), noproto(), callf(two, 3, 4));
  printf("%ld\n", nine(-1, -2, -3, -4, 251, 65532, 0xfffffff0, ~0ul, 1, -9, "k"));
    printf("%d %d %d %d %d %u %d\n", r8(300), rs8(200), r16(70000), rs16(40000), rb(256), r32(-1l),
    rs32(0x180000000)); int v[9] = {3, 1, 4, 1, 5, 9, 2, 6, 5};
    printf("%ld %ld\n", rank(v + 1, v + 4, v + 4), walk(v, v + 9)); int *all[] = {v, v + 5, v + 2};
    printf("%d %ld\n", *pick(all, 3), mixp(v, 6)); return 0; }
#elif PART == 4
/* Copies, structures by value, variadic functions, places in words. */

static ul h; static void mix(ul x) { h = (h ^ x) * 0x100000001b3ul; }
static void mixb(const void *p, int n) { const unsigned char *c = p; for (int i = 0; i < n; i++) mix(c[i]); }
#define SHOW(name) printf(name " %lx\n", h), h = 1
/* every size and place */
FAR void copies(unsigned char *a, unsigned char *b) {
  for (int to = 0; to < 9; to += 2) for (int from = to & 3; from < 9; from += 3) for (int n = 0; n < 20; n += 5) {
    for (int i = 0; i < 32; i++) a[i] = i, b[i] = 100 + i; memcpy(a + to, b + from, n); mixb(a, 32);
    memmove(a + to, a + from, n); mixb(a, 32); memset(a + from, to, n); mixb(a, 32);
    mix(memcmp(a + to, b + from, n) > 0); } SHOW("copies"); }
struct c3 { char a[3]; }; struct c5 { short s; char c; short t; char d; }; struct c9 { char x[9]; }; struct c24 {
    long a, b, c; }; struct c12 { int a, b, c; }; struct c130 { char c; long v[16]; short s; }; struct e {};
    struct one { short s; }; struct onep { char *p; }; struct ona { int a[1]; }; struct nest { struct one o; };
    union un { char c; long l; short s[3]; };
struct __attribute__((packed)) pk { char a; int b; short c; long d; char e; }; struct al { char c;
    _Alignas(32) int x; }; struct bf { unsigned a : 3; int b : 5; unsigned long c : 40; int : 0; signed char d : 2;
    _Bool e : 1; unsigned f : 31; };
FAR struct c3 g3(struct c3 x) { x.a[1] += 7; return x; }
FAR struct c5 g5(struct c5 x, int k) { x.t += k; x.d--; return x; }
FAR struct c9 g9(struct c9 x) { x.x[8] ^= x.x[0]; return x; }
FAR struct c24 g24(struct c24 x, struct c24 y) { x.a += y.c; x.b = y.a; return x; }
FAR struct c12 g12(struct c12 x) { int t = x.a; x.a = x.c; x.c = t; return x; }
FAR struct c130 g130(struct c130 x) { x.v[3] += x.s; x.c = 9; return x; }
FAR struct one g1(struct one x) { x.s = -x.s; return x; }
FAR struct onep gp(struct onep x) { x.p++; return x; }
FAR struct ona ga(struct ona x) { x.a[0] *= 3; return x; }
FAR struct nest gn(struct nest x) { x.o.s ^= 0x55; return x; }
FAR union un gu(union un x) { x.s[2] = 7; return x; }
FAR struct pk gk(struct pk x) { x.b += x.c; x.d -= x.a; x.e ^= 3; return x; }
FAR struct al gal(struct al x) { x.x += (int)((ul)&x & 31) + x.c; return x; }
FAR struct bf gb(struct bf x) { x.a++; x.b -= 3; x.c = x.c * 3 + x.f; x.d = ~x.d; x.e ^= 1; x.f += 5; return x; }
FAR void structs(int k) { struct c3 a = {{1, 2, k}}; a = g3(a); mixb(&a, 3); struct c5 b = {1, 2, 3, 4};
    b = g5(b, k); mix(b.s + b.c * 3 + b.t * 5 + b.d * 7); struct c9 c = {"abcdefghi"}; c = g9(c); mixb(&c, 9);
    struct c24 d = {1, k, 3}, e = {4, 5, 6}; d = g24(d, e); d = g24(d, d); mixb(&d, 24); struct c12 f = {k, 2, 3};
    f = g12(f); mixb(&f, 12); struct c130 g = {1, {k, 2, 3, 4, 5, 6, 7, 8}, -3}; g = g130(g130(g));
    mix(g.v[3] + g.c + g.s + g.v[0]);
  struct one o = {k}; o = g1(o); mix(o.s); struct onep p = {"xyz"}; p = gp(p); mix(*p.p); struct ona q = {{k}};
    q = ga(q); mix(q.a[0]); struct nest r = {{k}}; r = gn(r); mix(r.o.s); union un u; u.l = k * 0x1234567890l;
    u = gu(u); mix(u.l); struct pk v[3] = {{1, 2, 3, 4, 5}, {6, 7, k, 9, 10}, {0}}; v[1] = gk(v[1]); v[2] = v[0];
    v[0] = gk(v[2]); mixb(v, sizeof v); struct al w = {k, 5}; w = gal(w); mix(w.x);
    struct bf x = {5, -3, 0x123456789aul, 1, 1, 77}; x = gb(gb(x));
    mix(x.a), mix(x.b), mix(x.c), mix(x.d), mix(x.e), mix(x.f); SHOW("structs"); }
FAR long va(int n, ...) { va_list ap, aq; va_start(ap, n); va_copy(aq, ap); ul s = 1; for (int i = 0; i < n;
    i++) switch (i % 9) { case 0: s = s * 3 + va_arg(ap, int); break; case 1: s = s * 5 + va_arg(ap, long); break;
    case 2: s = s * 7 + *va_arg(ap, char *); break; case 3: { struct c12 x = va_arg(ap, struct c12);
    s = s * 3 + x.a + x.b * 2 + x.c * 3; break; } case 4: s = s * 11 + va_arg(ap, unsigned); break; case 5: {
    struct one x = va_arg(ap, struct one); s = s * 3 + x.s; break; } case 6: { struct c24 x = va_arg(ap, struct c24);
    s = s * 3 + x.a - x.c; break; } case 7: { struct ona x = va_arg(ap, struct ona); s = s * 13 + x.a[0]; break; }
    case 8: s = s * 3 + va_arg(ap, long long); break; } s = s * 17 + va_arg(aq, int); s += va_arg(aq, long);
    va_end(ap); va_end(aq); return s; }
FAR long va2(const char *f, va_list ap) { ul s = 0; for (; *f;
    f++) s = s * 33 + (*f == 'i' ? va_arg(ap, int) : *f == 'l' ? va_arg(ap, long) : *f == 'p' ? *va_arg(ap,
    const char *) : *f == 'f' ? va_arg(ap, long (*)(int, ...))(2, 3, 4l) : 0); return s; }
FAR long va1(const char *f, long a, long b, long c, long d, long e, long g, long i, ...) { va_list ap;
    va_start(ap, i); long s = va2(f, ap) + a + b * 2 + c * 3 + d * 4 + e * 5 + g * 6 + i * 7; va_end(ap); return s; }
static char text[40] = "0123456789abcdef"; static short sh[7] = {1, -2, 3, -4, 5}; static struct { char a; short b;
    int c; long d; char e[5]; } mixd[3] = {{1, 2, 3, 4, "five"}, {-1, -2, -3, -4, "six"}};
FAR void places(long i) { char *p = text + i; p[3] = 'x'; p[-i] = 'y'; *(short *)(text + 6) = 0x4142;
    ((int *)text)[3] += 5; ((long *)(text + 16))[i - 2] ^= 0x1122334455667788; short *s = sh + i; s[-2]++;
    s[1] = s[-1] * s[0]; mixd[i - 1].b -= i; mixd[i].c = mixd[i - 1].c << i; mixd[i].e[i] = 'z';
    mixd[i - 2].d += mixd[i - 1].a; mixb(text, 40); mixb(sh, 14); for (int k = 0; k < 3;
    k++) mix(mixd[k].a), mix(mixd[k].b), mix(mixd[k].c), mix(mixd[k].d), mixb(mixd[k].e, 5); SHOW("places"); }
FAR long neg(const int *p, long n) { long s = 0; for (long i = -n; i <= n; i++) s = s * 3 + p[i]; return s; }
FAR long neg2(const short (*p)[3], int i, unsigned j) { return p[i][j] + p[i - 1][j + 2] * 10 + p[-i][2 - j] * 100; }
FAR long neg3(const char *p, unsigned char i, signed char j, short k) {
    return p[i] + p[j] * 3 + p[k - 1] * 5 + p[(int)(i + j)] * 7 + *(p + 1 - k); }
FAR long neg4(const long *p, int i) { return p[i * 2 - 5] + (&p[-3])[i] - *(p - i); }
FAR void over(void) { unsigned char a[24], *volatile p = a; for (int i = 0; i < 24; i++) a[i] = i;
    memmove(p + 8, p, 16); mixb(a, 24); memmove(p, p + 8, 16); mixb(a, 24); memmove(p + 3, p, 16); mixb(a, 24);
    memmove(p, p + 5, 16); mixb(a, 24); struct c24 *s = (struct c24 *)malloc(72); s[0] = (struct c24){1, 2, 3};
    s[1] = (struct c24){4, 5, 6}; memmove((long *)s + 1, s, 40); mixb(s, 48); memmove(s, (long *)s + 1, 40);
    mixb(s, 48); *s = *s; s[2] = s[0]; s[0] = s[1]; mixb(s, 72); free(s); SHOW("over"); }
volatile char vc = 5; volatile short vs = -3; volatile unsigned vu = 7; volatile _Bool vb; volatile long vl = 1;
    static volatile struct bf vf;
FAR void vol(void) { vc += vs; vs *= vc; vu -= 9; vb = vu; vl <<= vc & 31; vf.c = vl + 3; vf.b = vs; vf.f = vu;
    vf.a = vf.c; mix(vc), mix(vs), mix(vu), mix(vb), mix(vl), mix(vf.a), mix(vf.b), mix(vf.c), mix(vf.f); SHOW("vol"); }
FAR void vla(int n) { int a[n][n + 1]; char b[n * 3]; memset(b, n, sizeof b); for (int i = 0; i < n;
    i++) for (int j = 0; j <= n; j++) a[i][j] = i * 10 + j; int (*p)[n + 1] = a + 1;
    mix(p[-1][2]), mix(p[1][n]), mix(sizeof a), mix(b[n * 3 - 1]); for (int k = 1; k < 4; k++) { struct { int x;
    char y[3]; } v[k]; v[k - 1].x = k; v[k - 1].y[k - 1] = 2; mix(sizeof v), mix(v[k - 1].x + v[k - 1].y[k - 1]); }
    SHOW("vla"); }
int main(void) {
  unsigned char *a = malloc(40), *b = malloc(48); h = 1; copies(a, b + 1); structs(77); structs(-5);
  printf("%lx\n", va(9, 1, 2l, "three", (struct c12){4, 5, 6}, 7u, (struct one){-8}, (struct c24){9, 10, 11},
    (struct ona){{12}}, 13ll)); printf("%lx %lx\n", va1("ilpif", 1, 2, 3, 4, 5, 6, 7, -8, 9l, "a", 10, va),
    va1("lilili", 1, 2, 3, 4, 5, 6, 7, 1l, 2, 3l, 4, 5l, 6));
  places(2); int v[7] = {1, 2, 3, 4, 5, 6, 7};
    short w[6][3] = {{1, 2, 3}, {4, 5, 6}, {7, 8, 9}, {10, 11, 12}, {13, 14, 15}, {16, 17, 18}}; long u[11];
    for (int i = 0; i < 11; i++) u[i] = i * i;
    printf("%lx %lx %lx %lx\n", neg(v + 3, 3), neg2(w + 2, 2, 0), neg3(text + 20, 5, -7, 3), neg4(u + 5, 3)); over();
    vol(); vla(4); return 0; }
#elif PART == 5
/* Numbers of any width. */
typedef unsigned _BitInt(7) u7; typedef _BitInt(7) s7; typedef unsigned _BitInt(33) u33; typedef _BitInt(33) s33;
    typedef unsigned _BitInt(1) u1; typedef _BitInt(17) s17; typedef unsigned _BitInt(24) u24;
    typedef _BitInt(48) s48; typedef unsigned _BitInt(63) u63; typedef unsigned _BitInt(100) u100;
    typedef _BitInt(100) s100; typedef _BitInt(65) s65; typedef unsigned _BitInt(65) u65; typedef _BitInt(3) s3;
#define OPS(T, U, B) \
FAR T add_##T(T a, T b) { return a + b; } FAR T sub_##T(T a, T b) { return a - b; } FAR T mul_##T(T a, T b) { \
    return a * b; } FAR T and_##T(T a, T b) { return a & b; } FAR T or_##T(T a, T b) { return a | b; } \
    FAR T xor_##T(T a, T b) { return a ^ b; } \
FAR T shl_##T(T a, U b) { return a << (b % B); } FAR T shr_##T(T a, U b) { return a >> (b % B); } \
    FAR T div_##T(T a, T b) { return b == 0 || b == (T)-1 ? a : a / b; } FAR T rem_##T(T a, T b) { \
    return b == 0 || b == (T)-1 ? a : a % b; } \
FAR int lt_##T(T a, T b) { return a < b; } FAR int le_##T(T a, T b) { return a <= b; } FAR int eq_##T(T a, T b) { \
    return a == b; } FAR T neg_##T(T a) { return -a; } FAR T not_##T(T a) { return ~a; } FAR T max_##T(T a, T b) { \
    return a > b ? a : b; } FAR T abs_##T(T a) { return a < 0 ? -a : a; } FAR long wide_##T(T a) { return a; } \
    FAR T narrow_##T(long a) { return a; } \
FAR int small_##T(T a) { return (signed char)a; } FAR T addc_##T(T a) { return a + (T)85; } FAR T mulc_##T(T a) { \
    return a * (T)3 - (T)1; } FAR int test_##T(T a) { return a ? 3 : 5; } FAR T loop_##T(T a) { T s = 0; \
    for (T i = 0; i < (T)3; i++) s += a * i, a >>= 1; return s; } \
struct T##_s { char c; T x; short d; }; FAR T field_##T(struct T##_s *p, long i) { p[i].x += p[i].c; \
    p[i].d ^= 0x5aa5; return p[i].x; } \
FAR T elem_##T(T *p, long i) { T *q = p + i; *q += 1; return q[-1] ^ *q; } \
FAR unsigned long all_##T(long x, long y) { T a = x, b = y; U c = y; unsigned long h = 17; \
 h = h * 31 + add_##T(a, b); h = h * 31 + sub_##T(a, b); h = h * 31 + mul_##T(a, b); h = h * 31 + and_##T(a, b); \
    h = h * 31 + or_##T(a, b); h = h * 31 + xor_##T(a, b); h = h * 31 + shl_##T(a, c); h = h * 31 + shr_##T(a, c); \
    h = h * 31 + div_##T(a, b); h = h * 31 + rem_##T(a, b); \
 h = h * 31 + lt_##T(a, b); h = h * 31 + le_##T(a, b); h = h * 31 + eq_##T(a, b); h = h * 31 + neg_##T(a); \
    h = h * 31 + not_##T(a); h = h * 31 + max_##T(a, b); h = h * 31 + abs_##T(a); h = h * 31 + wide_##T(a); \
    h = h * 31 + narrow_##T(y); h = h * 31 + small_##T(a); h = h * 31 + addc_##T(a); h = h * 31 + mulc_##T(a); \
    h = h * 31 + test_##T(a); h = h * 31 + loop_##T(a); \
 struct T##_s s[3] = {{1, a, 2}, {-3, b, 4}, {5, (T)(a ^ b), 6}}; for (int i = 0; i < 3; i++) { \
    h = h * 31 + field_##T(s, i); h = h * 31 + s[i].d + s[i].c; } T v[4] = {a, b, (T)(a + b), (T)(a - b)}; \
    for (int i = 1; i < 4; i++) h = h * 31 + elem_##T(v, i); for (int i = 0; i < 4; i++) h = h * 31 + v[i]; return h; \
    } \
static void run_##T(void) { long v[] = {0, 1, 2, 3, 5, 7, 31, 32, 63, 64, 85, 127, -1, -2, -64, -65, 1000, 65535, \
    -65536, 1l << 32, -(1l << 32), (1l << 47) - 1, -(1l << 47), 1l << 62, ~(1l << 62), 0x123456789abcdefl}; \
    int n = sizeof v / sizeof *v; for (int i = 0; i < n; i += 3) { unsigned long h = 0; for (int j = i % 11; j < n; \
    j += 11) h = h * 37 + all_##T(v[i], v[j]); printf(#T " %d %lx\n", i, h); } }
OPS(s7, u7, 7) OPS(u33, u33, 33) OPS(s48, u63, 48) OPS(u24, u24, 24) OPS(s100, u100, 100) OPS(u65, u65, 65)
int main(void) { run_s7(); run_u33(); run_s48(); run_u24(); run_s100(); run_u65(); return 0; }
#endif
