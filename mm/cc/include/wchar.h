#ifndef _WCHAR_H
#define _WCHAR_H
#include <stddef.h>
typedef __WINT_TYPE__ wint_t;
#endif
