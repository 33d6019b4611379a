// The four greatest of 64 values, each put in its place among those before it.
#include "bpf.h"

#define N 64
#define K 4

const volatile __u64 v[N] = {3, 1, 4, 1, 5, 9, 2, 6, 5, 3, 5, 8, 9, 7, 93, 2, 38, 4};
__u64 top[K];

static long insert(__u32 i, void *ctx) {
    if (i >= N)
        return 1;
    __u64 x = v[i];
#pragma unroll
    for (int k = 0; k < K; k++) {
        if (x > top[k]) {
            __u64 smaller = top[k];
            top[k] = x;
            x = smaller;
        }
    }
    return 0;
}

SEC("xdp") long top_four(__u64 argument) {
    return bpf_loop(N, insert, 0, 0);
}
