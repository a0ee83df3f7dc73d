/* Small output for the examples, without printf. */
#ifndef SAY_H
#define SAY_H
#include <stdio.h>

static void say(const char *text)
{
    fputs(text, stdout);
}

static void say_number(long number)
{
    char digits[20];
    int length = 0;
    unsigned long rest = number < 0 ? -(unsigned long)number : number;
    if (number < 0)
        putchar('-');
    do
        digits[length++] = '0' + rest % 10;
    while (rest /= 10);
    while (length)
        putchar(digits[--length]);
}
#endif
