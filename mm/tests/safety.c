/* Mistakes in C, and some valid C that is near them: `tools/csafety` tells of each whether the machine stops it. The title
   of a case is the comment before it; those that begin with `valid` are no mistakes. Each is a function; `which` says which
   one is carried out. */
#include <stdarg.h>
#include <stdint.h>
#include <stdio.h>
#include <stdlib.h>
#include <string.h>

#define NOINLINE __attribute__((noinline))
volatile long which = 4711;
volatile long zero, sink;
struct record { char name[8]; char secret[8]; };
static long numbers[8], others[8];
static char letters[10];

/* What the optimiser cannot see through. */
static NOINLINE void *hide(const void *p) { __asm__ volatile("" : "+r"(p) : : "memory"); return (void *)p; }
static NOINLINE long at(long n) { return n + zero; }
static NOINLINE char *local_text(void) { char text[16]; strcpy(text, "local"); return hide(text); }
static NOINLINE void use_stack(void) { char text[64]; memset(text, 'X', 64); sink = *(char *)hide(text); }
static NOINLINE long deep(long n) { char text[64]; text[n & 63] = n; return n <= 0 ? 0 : deep(n - 1) + *(char *)hide(text); }
static NOINLINE int product(int a, int b) { return a * b; }
static NOINLINE long sum(int n, ...) { va_list a; va_start(a, n); long r = 0; for (int i = 0; i < n; i++) r += va_arg(a, long); va_end(a); return r; }

/* a store one element after a local array */
static void c1(void) { long a[8]; ((long *)hide(a))[at(8)] = 1; }
/* a load one element after a local array */
static void c2(void) { long a[8]; memset(a, 0, sizeof a); sink = ((long *)hide(a))[at(8)]; }
/* a store one element after a block of `malloc` */
static void c3(void) { long *a = hide(malloc(64)); a[at(8)] = 1; hide(a); }
/* a load one element after a block of `malloc` */
static void c4(void) { long *a = hide(malloc(64)); sink = a[at(8)]; }
/* a store one element after a global array */
static void c5(void) { long *a = hide(numbers); a[at(8)] = 1; hide(a); }
/* a load one element after a global array */
static void c6(void) { long *a = hide(numbers); sink = a[at(8)]; }
/* a store one byte after a global array of 10 bytes */
static void c7(void) { char *a = hide(letters); a[at(10)] = 1; hide(a); }
/* a store one byte after a local array of 20 bytes */
static void c8(void) { char a[20]; ((char *)hide(a))[at(20)] = 1; hide(a); }
/* a store one byte after a block of 20 bytes */
static void c9(void) { char *a = hide(malloc(20)); a[at(20)] = 1; hide(a); }
/* a store 8 bytes after a block of 20 bytes */
static void c10(void) { char *a = hide(malloc(20)); a[at(28)] = 1; hide(a); }
/* a store after an array of variable length */
static void c11(void) { long n = at(8), a[n]; ((long *)hide(a))[n] = 1; hide(a); }
/* a store from one field of a structure into the next */
static void c12(void) { struct record r; memset(&r, 0, sizeof r); ((struct record *)hide(&r))->name[at(8)] = 'X'; hide(&r); }
/* a store from one row of a matrix into the next */
static void c13(void) { long m[4][4]; memset(m, 0, sizeof m); ((long (*)[4])hide(m))[0][at(4)] = 7; hide(m); }
/* a store before a local array of 64 bytes */
static void c14(void) { long a[8]; ((long *)hide(a))[at(-1)] = 1; hide(a); }
/* a store before a block of 64 bytes */
static void c15(void) { long *a = hide(malloc(64)); a[at(-1)] = 1; hide(a); }
/* a store before a global array of 64 bytes */
static void c16(void) { long *a = hide(numbers); a[at(-1)] = 1; hide(a); }
/* a store before a block of 24 bytes, into its spare bytes */
static void c17(void) { long *a = hide(malloc(24)); a[at(-1)] = 1; hide(a); }
/* a store 56 bytes before a block of 72 bytes, into its spare bytes */
static void c18(void) { char *a = hide(malloc(72)); a[at(-56)] = 1; hide(a); }
/* a store 57 bytes before a block of 72 bytes */
static void c19(void) { char *a = hide(malloc(72)); a[at(-57)] = 1; hide(a); }
/* a store by a far index from one global into another */
static void c20(void) { numbers[at(((char *)others - (char *)numbers) / 8)] = 5; }
/* a load from one local by a pointer to another, and their difference */
static void c21(void) { long a[4] = {0}, b[4] = {7}; long *p = hide(a), *q = hide(b); sink = p[q - p]; }
/* `strcpy` over the end */
static void c22(void) { char b[8]; strcpy(hide(b), hide("eight and more")); }
/* `memcpy` over the end of a block */
static void c23(void) { char *b = malloc(32), s[64]; memset(s, 1, 64); memcpy(hide(b), hide(s), at(40)); }
/* `memcpy` that reads over the end */
static void c24(void) { char *b = malloc(64), s[32]; memset(s, 1, 32); memcpy(hide(b), hide(s), at(64)); }
/* a load after `free` */
static void c25(void) { long *a = hide(malloc(64)); a[3] = 77; hide(a); free(a); hide(a); sink = a[3]; }
/* a store after `free` that changes a block handed out later, before the rest of the heap was */
static void c26(void) { long *a = hide(malloc(64)); free(a); hide(a); long *b = hide(malloc(64)); b[0] = 5; hide(b); a[0] = 99; hide(a); if (b[0] == 5) exit(3); }
/* a second `free` of a block */
static void c27(void) { void *a = hide(malloc(64)); free(a); hide(a); free(a); }
/* a second `free` of a block after another `malloc` */
static void c28(void) { void *a = hide(malloc(64)); free(a); hide(a); void *b = hide(malloc(64)); free(a); hide(b); }
/* a `free` of the middle of a block */
static void c29(void) { char *a = hide(malloc(64)); free(hide(a + 16)); }
/* a `free` of a local */
static void c30(void) { long a[8]; free(hide(a)); }
/* a use of a local after its function has ended */
static void c31(void) { char *p = hide(local_text()); use_stack(); hide(p); sink = *p; }
/* a use of the old pointer after `realloc` */
static void c32(void) { long *a = hide(malloc(64)); a[0] = 1; long *b = hide(realloc(a, 256)); hide(a); sink = a[0] + b[1]; }
/* what an earlier owner left in a block of `malloc` */
static void c33(void) { long *a = hide(malloc(64)); a[2] = 4711; hide(a); free(a); for (int i = 0; i < 1100; i++) { a = hide(malloc(64)); if (!a) break; if (a[2] == 4711) return; free(a); } exit(3); }
/* a link of the list of free blocks, by a load before a block */
static void c34(void) { long **a = hide(malloc(24)), **b = hide(malloc(24)); free(a); hide(a); free(b); hide(b); long **c = hide(malloc(24)); long *leak = c[at(-1)]; leak[1] = 7; }
/* a store into a free block that makes `malloc` hand out another object */
static void c35(void) { static long victim[2] = {1, 2}; long **a = hide(malloc(16)); free(a); hide(a); a[0] = hide(victim); hide(a); hide(malloc(16)); long *x = hide(malloc(16)); x[0] = 666; hide(x); if (((long *)hide(victim))[0] == 1) exit(3); }
/* a size that overflows in `calloc` */
static void c36(void) { char *p = hide(calloc(at(0x4000000000000001), 4)); if (!p) exit(3); }
/* a local that is not set */
static void c37(void) { use_stack(); int a[4]; sink = ((int *)hide(a))[2]; }
/* a number as a pointer */
static void c38(void) { volatile uintptr_t n = 0x100000; sink = *(long *)n; }
/* a null pointer */
static void c39(void) { int *p = hide(0); sink = *p; }
/* a field by a null pointer */
static void c40(void) { struct record *p = hide(0); sink = p->secret[3]; }
/* a pointer of which a byte was written */
static void c41(void) { long x = 3; void *p = &x; volatile char *q = hide(&p); q[1] = q[1]; hide(&p); sink = *(long *)p; }
/* a number as a function */
static void c42(void) { int (*f)(int, int) = (int (*)(int, int))at(0x110000); sink = f(1, 2); }
/* a function with another type */
static void c43(void) { int (*f)(int) = (int (*)(int))hide(product); sink = f(3); }
/* the middle of a function as a function */
static void c44(void) { char *f = hide(product); sink = ((int (*)(int, int))hide(f + at(8)))(3, 4); }
/* data as a function */
static void c45(void) { long a[4] = {0}; int (*g)(int, int) = (int (*)(int, int))hide(a); sink = g(3, 4); }
/* a store into code */
static void c46(void) { long *f = hide(product); f[0] = 0; }
/* a load of code */
static void c47(void) { long *f = hide(product); sink = f[0]; }
/* a store into a string constant */
static void c48(void) { char *s = hide("const"); s[0] = 'C'; }
/* a store into an object that is `const` */
static void c49(void) { static const int k = 5; *(int *)hide(&k) = 6; }
/* a stack that is full */
static void c50(void) { sink = deep(at(100000)); }
/* an overflow of a local as far as the way back of its function */
static void c51(void) { long a[2]; long *p = hide(a); for (int i = 0; i < 40; i++) p[at(i)] = 0x41414141; }
/* 8 bytes at an odd address */
static void c52(void) { char b[16] = {0}; sink = *(long *)((char *)hide(b) + at(1)); }
/* `printf` of a number as a text */
static void c53(void) { printf((char *)hide("%s\n"), at(1234)); }
/* `printf` of more than it was handed */
static void c54(void) { printf((char *)hide("%ld %ld\n"), 1L); }
/* `va_arg` of more than was handed over */
static void c55(void) { sink = sum(at(6), 1L); }
/* a division by zero */
static void c56(void) { sink = 5 / at(0); }
/* a shift by 40 bits of an `int` */
static void c57(void) { sink = 1 << at(40); }
/* an overflow of an `int` */
static void c58(void) { int x = at(0x7fffffff); sink = x + 1; }
/* valid: a pointer copied by `memcpy` */
static void c59(void) { long x = 5; void *p = &x, *q; memcpy(hide(&q), hide(&p), at(8)); sink = *(long *)q; }
/* valid: a pointer copied byte by byte */
static void c60(void) { long x = 5; void *p = &x, *q; char *s = hide(&p), *d = hide(&q); for (int i = at(0); i < 8; i++) d[i] = s[i]; sink = *(long *)q; }
/* valid: a pointer that is a number in another function */
static void c61(void) { long x = 5; uintptr_t n = at((uintptr_t)hide(&x)); sink = *(long *)n; }
/* valid: a union of a pointer and a number that is changed */
static void c62(void) { long a[2] = {1, 2}; union { long *p; uintptr_t n; } u; u.p = hide(a); ((volatile uintptr_t *)hide(&u.n))[0] += 8; sink = *u.p; }
/* valid: comparison and difference of two objects */
static void c63(void) { long a[4], b[4]; long *p = hide(a), *q = hide(b); sink = p != q && (p - q) + (q - p) == 0; }
/* valid: one past the end, kept in memory, and then moved back */
static void c64(void) { long a[4] = {1, 2, 3, 4}; long *volatile end = a + 4; sink = end[-1]; }
/* valid: one past the end, computed and moved back in one function */
static void c65(void) { long a[4] = {1, 2, 3, 4}; long *p = hide(a), *end = p + at(4); while (end > p) sink += *--end; }
/* a link of the list of free blocks, by a load after `free` */
static void c66(void) { long **a = hide(malloc(16)), **b = hide(malloc(16)); free(hide(a)); free(hide(b)); long *link = b[0]; link[0] = 1; }
/* `printf` of a pointer as an `int` */
static void c67(void) { long x = 1; printf((char *)hide("%d\n"), hide(&x)); }
/* valid: a pointer loaded and stored as a number */
static void c68(void) { struct { long a; void *p; } s = {1, 0}; s.p = hide(&s); long *q = hide(&s.p); *q = *q; sink = *(long *)s.p; }

static void (*const cases[])(void) = {
    0, c1, c2, c3, c4, c5, c6, c7, c8, c9, c10, c11, c12, c13, c14, c15, c16, c17, c18, c19, c20, c21, c22, c23, c24, c25,
    c26, c27, c28, c29, c30, c31, c32, c33, c34, c35, c36, c37, c38, c39, c40, c41, c42, c43, c44, c45, c46, c47, c48, c49,
    c50, c51, c52, c53, c54, c55, c56, c57, c58, c59, c60, c61, c62, c63, c64, c65, c66, c67, c68,
};

/* 3 where a case says that nothing came of it, else 0. */
int main(void)
{
    cases[which]();
    return 0;
}
