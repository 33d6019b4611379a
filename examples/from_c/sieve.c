// The sieve of Eratosthenes up to 400: a loop for each of 2 to 19 strikes its multiples, and stops past the last one.
#include "bpf.h"

#define N 400

__u64 composite[N];

static long strike(__u32 i, void *ctx) {
    __u32 multiple = (i + 2) * *(__u32 *)ctx;
    if (multiple >= N)
        return 1;
    composite[multiple] = 1;
    return 0;
}

SEC("xdp") long sieve(__u64 argument) {
    __u32 factor;
#pragma unroll
    for (int k = 2; k < 20; k++) {
        factor = k;
        bpf_loop(N, strike, &factor, 0);
    }
    return 0;
}
