// Sums of all sizes in global variables that callbacks add to as C is written, beside one another in one word.
#include "bpf.h"

unsigned char hits, misses;
unsigned short pairs[3];
unsigned int totals[5];
unsigned long long whole;
int balance;
short low, high;
_Bool any, all = 1;

static long count(__u32 i, void *ctx) {
    unsigned int x = i * 40503u + *(unsigned int *)ctx;
    if (x & 64)
        hits++;
    else
        misses += 3;
    pairs[x % 3] += x >> 4;
    totals[x % 5] += x << 16;
    whole += x;
    balance += x & 1 ? (int)(x & 1023) : -(int)(x & 2047);
    low -= x & 255;
    high ^= x;
    any |= x == 40503;
    all &= x > 5;
    return 0;
}

SEC("xdp") long global_sums(__u64 argument) {
    unsigned int start = argument;
    bpf_loop(150, count, &start, 0);
    return whole + totals[2] + balance;
}
