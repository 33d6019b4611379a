// Odd-even transposition sort of 16 values, a loop in each round. In a round no two iterations share an element.
#include "bpf.h"

#define N 16

__u64 v[N] = {9, 3, 15, 1, 12, 7, 0, 14, 5, 11, 2, 8, 6, 13, 4, 10};

struct round {
    __u32 odd;
};

static long order_pair(__u32 i, void *ctx) {
    struct round *round = ctx;
    __u64 k = 2ULL * i + round->odd;
    if (k >= N - 1)
        return 0;
    __u64 x = v[k], y = v[k + 1];
    if (x > y) {
        v[k] = y;
        v[k + 1] = x;
    }
    return 0;
}

SEC("xdp") long sort(__u64 argument) {
    struct round round;
#pragma unroll
    for (int k = 0; k < N; k++) {
        round.odd = k & 1;
        bpf_loop(N / 2, order_pair, &round, 0);
    }
    return 0;
}
