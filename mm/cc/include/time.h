#ifndef _TIME_H
#define _TIME_H
#include <stddef.h>

/* There is no clock: who uses one of these is told so before the program runs. */
typedef long time_t;
typedef long clock_t;
#define CLOCKS_PER_SEC 1000000
struct tm { int tm_sec, tm_min, tm_hour, tm_mday, tm_mon, tm_year, tm_wday, tm_yday, tm_isdst; };
time_t time(time_t *);
clock_t clock(void);
struct tm *localtime(const time_t *);
struct tm *gmtime(const time_t *);
#endif
