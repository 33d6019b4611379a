/* What is timed: two programs, and the clock. */
#ifndef TIMED_H
#define TIMED_H

#include "expect.h"
#include <time.h>

/* Ten instructions: counts its argument in one of 16 elements. */
static const char ten[] =
    "maps 16\n"
    "    mov64 r6, r1\n"
    "    and64 r6, 15\n"
    "    lsh64 r6, 3\n"
    "    ldmapval r2, 0, 0\n"
    "    add64 r2, r6\n"
    "    mov64 r3, 1\n"
    "    atomic64 add [r2+0], r3\n"
    "    mov64 r0, r1\n"
    "    add64 r0, 1\n"
    "    exit\n";

/* Twenty: the same with ten operations of registers. */
static const char twenty[] =
    "maps 16\n"
    "    mov64 r6, r1\n"
    "    mul64 r6, 7\n"
    "    xor64 r6, 90\n"
    "    rsh64 r6, 3\n"
    "    add64 r6, r1\n"
    "    mul64 r6, 5\n"
    "    xor64 r6, 33\n"
    "    rsh64 r6, 2\n"
    "    add64 r6, r1\n"
    "    or64 r6, 1\n"
    "    add64 r6, 9\n"
    "    and64 r6, 15\n"
    "    lsh64 r6, 3\n"
    "    ldmapval r2, 0, 0\n"
    "    add64 r2, r6\n"
    "    mov64 r3, 1\n"
    "    atomic64 add [r2+0], r3\n"
    "    mov64 r0, r1\n"
    "    add64 r0, 1\n"
    "    exit\n";

/* Nanoseconds since some moment. */
static inline double now(void)
{
    struct timespec at;

    clock_gettime(CLOCK_MONOTONIC, &at);
    return (double)at.tv_sec * 1e9 + (double)at.tv_nsec;
}

#endif
