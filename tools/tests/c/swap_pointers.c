// Pointers to globals that are passed to functions: swaps, and a reversal in place.
#include "bpf.h"

unsigned int left[8] = {1, 2, 3, 4, 5, 6, 7, 8}, right[8];
unsigned char bytes[10] = "abcdefghi";
short a = -5, b = 17;

static void swap_shorts(short *x, short *y) {
    short t = *x;
    *x = *y;
    *y = t;
}

static void reverse(unsigned char *from, unsigned int length) {
    unsigned char *to = from + length - 1;
    while (from < to) {
        unsigned char t = *from;
        *from++ = *to;
        *to-- = t;
    }
}

static __attribute__((noinline)) unsigned int sum(const unsigned int *v, int n) {
    unsigned int s = 0;
    for (int k = 0; k < 8; k++)
        if (k < n)
            s += v[k];
    return s;
}

static long copy(__u32 i, void *ctx) {
    unsigned int *from = left, *to = right;
    if (i < 8)
        to[7 - i] = from[i] * 3;
    return 0;
}

SEC("xdp") long swap_pointers(__u64 argument) {
    unsigned int *larger;
    bpf_loop(8, copy, 0, 0);
    swap_shorts(&a, &b);
    reverse(bytes, 9);
    larger = argument & 1 ? left : right;
    larger[argument & 7] += 100;
    return sum(left, 8) * 1000 + sum(right, 5) + a;
}
