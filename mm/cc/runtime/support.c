/* What the translator itself calls. */
#include <limits.h>
#include <mm.h>
#include <stdarg.h>
#include <stddef.h>

typedef long __attribute__((may_alias)) word;
typedef unsigned long number;

/* Clang makes functions of its own out of the usual loops for these, which would be these again. */
static const unsigned char ones_of_four[16] = {0, 1, 1, 2, 1, 2, 2, 3, 1, 2, 2, 3, 2, 3, 3, 4};

number __mm_ones(number x, long bits)
{
    number n = 0;
    for (; x; x >>= 4)
        n += ones_of_four[x & 15];
    return n;
}

number __mm_leading_zeros(number x, long bits)
{
    number n = 0;
    for (number step = 32; step; step >>= 1)
        if (x >> step)
            x >>= step, n += step;
    return bits - n - (x != 0);
}

number __mm_trailing_zeros(number x, long bits)
{
    return x ? __mm_ones((x & -x) - 1, 64) : bits;
}

number __mm_bytes_swapped(number x, long bits)
{
    number y = 0;
    for (; bits > 0; bits -= 8, x >>= 8)
        y = y << 8 | (x & 255);
    return y;
}

number __mm_bits_reversed(number x, long bits)
{
    number y = 0;
    for (; bits > 0; bits--, x >>= 1)
        y = y << 1 | (x & 1);
    return y;
}

/* The upper half of a product. */
number __mm_product_high(number a, number b)
{
    number al = a & 0xffffffff, ah = a >> 32, bl = b & 0xffffffff, bh = b >> 32;
    number middle = al * bh + (al * bl >> 32);
    number other = ah * bl + (middle & 0xffffffff);
    return ah * bh + (middle >> 32) + (other >> 32);
}

number __mm_product_overflows(number a, number b)
{
    return __mm_product_high(a, b) != 0;
}

number __mm_signed_product_overflows(long a, long b)
{
    number high = __mm_product_high(a, b) - (a < 0 ? b : 0) - (b < 0 ? a : 0);
    long low = (number)a * (number)b;
    return (long)high != low >> 63;
}

/* Whether a product of numbers of 128 bits has more. */
number __mm_wide_product_overflows(number al, number ah, number bl, number bh)
{
    if (ah && bh || __mm_product_high(ah, bl) || __mm_product_high(bh, al))
        return 1;
    number cross = ah * bl + bh * al;
    return __mm_product_high(al, bl) + cross < cross;
}

number __mm_signed_wide_product_overflows(number al, number ah, number bl, number bh)
{
    int negative = (long)(ah ^ bh) < 0;
    if ((long)ah < 0)
        ah = ~ah + !al, al = -al;
    if ((long)bh < 0)
        bh = ~bh + !bl, bl = -bl;
    if (__mm_wide_product_overflows(al, ah, bl, bh))
        return 1;
    number high = __mm_product_high(al, bl) + ah * bl + bh * al;
    return high >> 63 && !(negative && high == 1ul << 63 && !(al * bl));
}

/* The length of a segment that holds so many bytes. */
long __mm_log_of(number size)
{
    long log = 3;
    while ((1ul << log) < size)
        log++;
    return log;
}

/* The same of an array whose length is known at the run alone; that of one below 0 is longer than any segment. */
long __mm_log_of_array(number size)
{
    return size >> 40 ? 40 : __mm_log_of(size);
}

static number bits_of(const void *pointer)
{
    return (number)pointer;
}

/* The halves of a shift of 128 bits. */
number __mm_left_low(number low, number high, number by)
{
    return by & 64 ? 0 : low << (by & 63);
}

number __mm_left_high(number low, number high, number by)
{
    return by & 64 ? low << (by & 63) : by & 63 ? high << (by & 63) | low >> (64 - (by & 63)) : high;
}

number __mm_right_low(number low, number high, number by)
{
    return by & 64 ? high >> (by & 63) : by & 63 ? low >> (by & 63) | high << (64 - (by & 63)) : low;
}

number __mm_right_high(number low, number high, number by)
{
    return by & 64 ? 0 : high >> (by & 63);
}

number __mm_signed_right_low(number low, number high, number by)
{
    return by & 64 ? (long)high >> (by & 63) : by & 63 ? low >> (by & 63) | high << (64 - (by & 63)) : low;
}

number __mm_signed_right_high(number low, number high, number by)
{
    return by & 64 ? (long)high >> 63 : (long)high >> (by & 63);
}

/* Divisions of 128 bits, bit by bit. The result is the rest where `rest` is set. */
static void divide(number *result, number al, number ah, number bl, number bh, int rest)
{
    number ql = 0, qh = 0, rl = 0, rh = 0;
    for (int at = 127; at >= 0; at--) {
        number bit = at & 64 ? ah >> (at & 63) & 1 : al >> at & 1;
        rh = rh << 1 | rl >> 63;
        rl = rl << 1 | bit;
        if (rh > bh || rh == bh && rl >= bl) {
            rh -= bh + (rl < bl);
            rl -= bl;
            if (at & 64)
                qh |= 1ul << (at & 63);
            else
                ql |= 1ul << at;
        }
    }
    result[0] = rest ? rl : ql;
    result[1] = rest ? rh : qh;
}

static void divide_signed(number *result, number al, number ah, number bl, number bh, int rest)
{
    long turned = rest ? (long)ah : (long)(ah ^ bh);
    if ((long)ah < 0)
        ah = ~ah + !al, al = -al;
    if ((long)bh < 0)
        bh = ~bh + !bl, bl = -bl;
    divide(result, al, ah, bl, bh, rest);
    if (turned < 0) {
        result[1] = ~result[1] + !result[0];
        result[0] = -result[0];
    }
}

void __mm_wide_udiv(number *result, number al, number ah, number bl, number bh) { divide(result, al, ah, bl, bh, 0); }
void __mm_wide_urem(number *result, number al, number ah, number bl, number bh) { divide(result, al, ah, bl, bh, 1); }

void __mm_wide_sdiv(number *result, number al, number ah, number bl, number bh)
{
    divide_signed(result, al, ah, bl, bh, 0);
}

void __mm_wide_srem(number *result, number al, number ah, number bl, number bh)
{
    divide_signed(result, al, ah, bl, bh, 1);
}
