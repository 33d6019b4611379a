// Prefix sums: each element gets the sum of those up to it, so that each iteration reads what the last one wrote.
#include "bpf.h"

#define N 64

__u64 v[N] = {3, 1, 4, 1, 5, 9, 2, 6};

static long step(__u32 i, void *ctx) {
    if (i + 1 >= N)
        return 1;
    v[i + 1] += v[i];
    return 0;
}

SEC("xdp") long prefix_sum(__u64 argument) {
    bpf_loop(N - 1, step, 0, 0);
    return v[N - 1];
}
