/* The C library by what it answers at its edges, for a comparison with the host's (mm/tests/test_cc_library.py). PART says
   which of its parts is asked. */
#include <ctype.h>
#include <errno.h>
#include <inttypes.h>
#include <limits.h>
#include <stdio.h>
#include <stdlib.h>
#include <string.h>
#include <strings.h>

#define COUNT(list) (sizeof list / sizeof *list)
static const char *const texts[] = {"", "a", "b", "ab", "aba", "abc", "abcabc", "ABC", "aBcAbC", "a b,c;d", "zebra", "[x_y]", "xyzzy\377"};
static char room[64];

static void dashes(void)
{
    memset(room, '-', sizeof room);
}

/* What stands in the room, up to the last byte that is no dash; zeros are shown as dots. */
static void tell(const char *title)
{
    int last = sizeof room;
    while (last > 0 && room[last - 1] == '-')
        last--;
    printf("%s ", title);
    for (int at = 0; at < last; at++)
        printf("%c", room[at] ? room[at] : '.');
    printf("|\n");
}

static long place(const char *text, const char *found)
{
    return found ? found - text : -1;
}

static int sign(int x)
{
    return (x > 0) - (x < 0);
}

static void searches(const char *text)
{
    for (int byte = 'a'; byte <= 'd'; byte++)
        printf("%ld %ld ", place(text, strchr(text, byte)), place(text, strrchr(text, byte)));
    printf("%ld %ld\n", place(text, strchr(text, 0)), place(text, strrchr(text, 0)));
    for (unsigned at = 0; at < COUNT(texts); at++) {
        const char *set = texts[at];
        printf("%lu %lu %ld %ld ", strspn(text, set), strcspn(text, set), place(text, strpbrk(text, set)), place(text, strstr(text, set)));
        printf("%d %d %d %d\n", sign(strcmp(text, set)), sign(strcasecmp(text, set)), sign(strncmp(text, set, 1)), sign(strncmp(text, set, 3)));
    }
    printf("%lu:", strlen(text));
    for (unsigned most = 0; most < 9; most++)
        printf(" %lu", strnlen(text, most));
    printf("\n");
}

static void copies(const char *text)
{
    for (unsigned size = 0; size < 9; size++) {
        dashes();
        printf("%ld ", place(room, strncpy(room, text, size)));
        tell("strncpy");
        dashes();
        printf("%ld ", place(room, stpncpy(room, text, size)));
        tell("stpncpy");
        dashes();
        strcpy(room, "to");
        printf("%ld ", place(room, strncat(room, text, size)));
        tell("strncat");
    }
    dashes();
    printf("%ld ", place(room, stpcpy(room, text)));
    tell("stpcpy");
    printf("%ld ", place(room, strcat(room, "+more")));
    tell("strcat");
}

static void pieces(const char *text, const char *set)
{
    char *rest;
    dashes();
    strcpy(room, text);
    for (char *piece = strtok_r(room, set, &rest); piece; piece = strtok_r(0, set, &rest))
        printf("<%s>", piece);
    printf("\n");
    strcpy(room, text);
    for (char *piece = strtok(room, set); piece; piece = strtok(0, set))
        printf("<%s>", piece);
    printf("\n");
}

static void letters(void)
{
    static int (*const kinds[])(int) = {isdigit, islower, isupper, isalpha, isalnum, isblank, isspace, iscntrl, isprint, isgraph, ispunct, isxdigit};
    for (int c = -1; c < 256; c++) {
        unsigned found = 0;
        for (unsigned kind = 0; kind < COUNT(kinds); kind++)
            found |= (unsigned)!!kinds[kind](c) << kind;
        printf("%x %d %d%c", found, tolower(c), toupper(c), c % 16 == 15 ? '\n' : ',');
    }
}

static void numbers(void)
{
    static const long edges[] = {0, 1, -1, 2, -2, 7, -7, 100, -100, INT_MAX, INT_MIN + 1, LONG_MAX, LONG_MIN + 1};
    for (unsigned at = 0; at < COUNT(edges); at++) {
        long a = edges[at];
        printf("%d %ld %lld %" PRIdMAX " %d %d %d:", abs((int)a), labs(a), llabs(a), imaxabs(a), ffs((int)a), ffsl(a), ffsll(a));
        for (unsigned other = 1; other < COUNT(edges); other++) {
            ldiv_t of_long = ldiv(a, edges[other]);
            imaxdiv_t of_most = imaxdiv(a, edges[other]);
            printf(" %ld %ld %d", of_long.quot, of_long.rem, of_long.quot == of_most.quot && of_long.rem == of_most.rem);
            if ((int)edges[other]) {
                div_t of_int = div((int)a, (int)edges[other]);
                printf(" %d %d", of_int.quot, of_int.rem);
            }
        }
        printf("\n");
    }
}

static void read_numbers(void)
{
    static const char *const given[] = {"", "0", "-0", "+7", "  42x", "-42", "0x1F", "0x", "0xg", "077", "08", "zz", "Zz9", "10", "9223372036854775807",
        "9223372036854775808", "-9223372036854775808", "-9223372036854775809", "18446744073709551615", "18446744073709551616", "-1", "--1", "\t\n12"};
    static const int bases[] = {0, 2, 8, 10, 11, 16, 35, 36};
    for (unsigned at = 0; at < COUNT(given); at++) {
        for (unsigned base = 0; base < COUNT(bases); base++) {
            char *end, *of_unsigned;
            errno = 0;
            long found = strtol(given[at], &end, bases[base]);
            printf("%ld %ld %d ", found, place(given[at], end), errno == ERANGE);
            printf("%lu %ld,", strtoul(given[at], &of_unsigned, bases[base]), place(given[at], of_unsigned));
        }
        printf("%ld\n", atol(given[at]));
    }
}

static int by_value(const void *a, const void *b)
{
    long one = *(const long *)a, other = *(const long *)b;
    return (one > other) - (one < other);
}

static void sorted(void)
{
    static long values[40];
    static const unsigned counts[] = {0, 1, 2, 3, 7, 8, 9, 15, 16, 17, 40};
    for (unsigned which = 0; which < COUNT(counts); which++) {
        unsigned count = counts[which];
        for (unsigned at = 0; at < count; at++)
            values[at] = (at * 7919 + 13) % 101 * 2;
        qsort(values, count, sizeof *values, by_value);
        for (unsigned at = 0; at < count; at++)
            printf("%ld ", values[at]);
        for (long key = -1; key < 204; key += count < 20 ? 1 : 5) {
            long *found = bsearch(&key, values, count, sizeof *values, by_value);
            if (found)
                printf("%ld@%ld ", key, (long)(found - values));
        }
        printf("\n");
    }
}

static void bytes(void)
{
    static const char one[] = "one\0two\0six", other[] = "one\0two\377six";
    for (unsigned size = 0; size <= sizeof one; size++)
        printf("%d %d %ld %ld,", sign(memcmp(one, other, size)), !!bcmp(one, other, size), place(one, memchr(one, 't', size)), place(other, memchr(other, 255, size)));
    for (int to = 0; to < 6; to++) {
        dashes();
        memcpy(room, "0123456789", 10);
        memmove(room + to, room + 3, 5);
        tell("memmove");
        memset(room + to, 256 + 'x', to);
        bcopy(room, room + 20, 4);
        bzero(room + 30, to);
        tell("memset");
    }
    printf("%ld %ld\n", place(one, index(one, 'e')), place(one, rindex(one, 'q')));
}

/* Every choice of flags with widths and precisions, for each way to write a number. */
static void forms_of_numbers(void)
{
    static const char *const rooms[] = {"", "*", ".", ".3", "7.3", "6.*"};
    static const long values[] = {0, 8, -77};
    for (unsigned flags = 0; flags < 32; flags++) {
        for (unsigned which = 0; which < COUNT(rooms); which++) {
            for (const char *kind = "dox"; *kind; kind++) {
                char form[16] = "%", *at = form + 1;
                for (unsigned flag = 0; flag < 5; flag++)
                    if (flags >> flag & 1)
                        *at++ = "-0+ #"[flag];
                at = stpcpy(at, rooms[which]);
                *at++ = *kind;
                *at++ = '|';
                *at = 0;
                for (unsigned value = 0; value < COUNT(values); value++)
                    strchr(form, '*') ? printf(form, -4 + 9 * (int)(value % 2), (int)values[value]) : printf(form, (int)values[value]);
            }
            printf("\n");
        }
    }
}

/* Numbers of every size, texts and letters, what is counted, and what finds no room. */
static void forms_of_others(void)
{
    static const long values[] = {0, -1, 127, 128, -129, 32768, INT_MAX, INT_MIN, LONG_MAX, LONG_MIN};
    for (unsigned at = 0; at < COUNT(values); at++) {
        long value = values[at];
        printf("%hhd %hhu %hd %#hX %d %u %#o %ld %#lx %lld %llu %zu %td %jd %#jo %i\n", (int)value, (int)value, (int)value, (int)value,
            (int)value, (int)value, (int)value, value, value, (long long)value, (long long)value, value, value, value, value, (int)value);
    }
    for (unsigned at = 0; at < COUNT(texts); at++) {
        const char *text = texts[at];
        printf("%s|%5s|%-5s|%.2s|%-7.3s|%.*s|%*s|%c|%3c|%-3c|%%|\n", text, text, text, text, text, -1, text, -4, text, 'a' + at, 'b', 'c');
        for (unsigned size = 0; size < 9; size++) {
            dashes();
            printf("%d ", snprintf(room, size, "%s+%u", text, at));
            tell("snprintf");
        }
        dashes();
        printf("%d ", sprintf(room, "<%-3s>%5u", text, at));
        tell("sprintf");
    }
    signed char least;
    short less;
    int one;
    long more;
    int all = printf("a%hhn%s%hn%5d%n%c%ln|\n", &least, "bcd", &less, 42, &one, 'e', &more);
    printf("%d %d %d %ld %d\n", least, less, one, more, all);
}

static void first(void) { printf("the first, last\n"); }
static void again(void) { printf("again\n"); }
static void second(void) { printf("the second\n"); }

int main(void)
{
    for (unsigned at = 0; at < COUNT(texts) && PART < 2; at++)
        (PART ? copies : searches)(texts[at]);
    if (PART == 2) {
        pieces("", ",");
        pieces(",,", ",");
        pieces(",one;two,,three;", ",;");
        pieces("one", "");
        letters();
    } else if (PART == 3) {
        numbers();
        bytes();
    } else if (PART == 4) {
        read_numbers();
    } else if (PART == 5) {
        sorted();
    } else if (PART == 6) {
        forms_of_numbers();
    } else if (PART == 7) {
        forms_of_others();
    }
    printf("%d", atexit(first));
    for (int at = 0; at < 30; at++)
        printf("%d", atexit(again));
    printf("%d\n", atexit(second));
    return 7;
}
