/* A stand-in for C's header, with what needs nothing of a machine. */
#ifndef STAND_IN_STDLIB_H
#define STAND_IN_STDLIB_H
#include <stddef.h>
static __inline__ int abs(int value) { return value < 0 ? -value : value; }
static __inline__ long labs(long value) { return value < 0 ? -value : value; }
static __inline__ long long llabs(long long value) { return value < 0 ? -value : value; }
#endif
