// The Mandelbrot set in fixed point, over 256 times 256 points: a histogram of when points leave it, and for each column
// of points the last row at which one stays in it. Each of the two loops does some 17 million instructions, which are
// enough for threads.
#include "bpf.h"

#define SIDE 256
#define STEPS 16
#define FRACTION 24 // bits after the point

__u64 left_after[STEPS + 1];
__u64 last_row[SIDE];

static __always_inline __u64 times(__u64 a, __u64 b) {
    return (long long)(a * b) >> FRACTION;
}

// After how many steps the point of an index leaves the set, STEPS where it stays. It takes the same way for all points.
static __always_inline __u64 steps(__u32 i) {
    __u64 x = 0, y = 0, inside = 1, count = 0;
    __u64 real = (__u64)(i % SIDE) * (5 << FRACTION) / 2 / SIDE - (2 << FRACTION);      // -2 to 0.5
    __u64 imaginary = (__u64)(i / SIDE) * (5 << FRACTION) / 2 / SIDE - (5 << FRACTION) / 4; // -1.25 to 1.25
#pragma unroll
    for (int k = 0; k < STEPS; k++) {
        __u64 xx = times(x, x), yy = times(y, y);
        inside &= (xx + yy - (4ULL << FRACTION)) >> 63; // the sign of the difference
        count += inside;
        y = 2 * times(x, y) + imaginary;
        x = xx - yy + real;
    }
    return count;
}

static long count_steps(__u32 i, void *ctx) {
    __u64 k = steps(i);
    barrier_var(k);
    if (k <= STEPS)
        __sync_fetch_and_add(&left_after[k], 1);
    return 0;
}

static long note_row(__u32 i, void *ctx) {
    __u64 k = steps(i);
    barrier_var(i);
    if (k == STEPS)
        last_row[i % SIDE] = i / SIDE;
    return 0;
}

SEC("xdp") long mandelbrot(void *ctx) {
    bpf_loop(SIDE * SIDE, count_steps, 0, 0);
    bpf_loop(SIDE * SIDE, note_row, 0, 0);
    return left_after[STEPS];
}
