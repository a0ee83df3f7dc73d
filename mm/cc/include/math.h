/* Floating point is left out. */
#ifndef _MATH_H
#define _MATH_H
#endif
