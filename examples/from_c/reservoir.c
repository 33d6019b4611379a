// Reservoir sampling: 8 of 1,000 numbers. The index is masked behind a barrier, since clang may use another register
// than the one that it has compared.
#include "bpf.h"

#define K 8

__u64 sample[K];

// The finalizer of MurmurHash3.
static __always_inline __u64 mixed(__u64 x) {
    x ^= x >> 33;
    x *= 0xff51afd7ed558ccdULL;
    x ^= x >> 33;
    x *= 0xc4ceb9fe1a85ec53ULL;
    return x ^ x >> 33;
}

static long take(__u32 i, void *ctx) {
    __u64 place = i < K ? i : mixed(i) % (i + 1);
    if (place < K) {
        barrier_var(place);
        sample[place & (K - 1)] = i;
    }
    return 0;
}

SEC("xdp") long reservoir(__u64 argument) {
    return bpf_loop(1000, take, 0, 0);
}
