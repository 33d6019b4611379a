// A Bloom filter of 1,024 bits: 100 keys are added, and of 1,000 the hits are counted.
#include "bpf.h"

#define WORDS 16

__u64 bits[WORDS];
__u64 hits;

// The finalizer of MurmurHash3.
static __always_inline __u64 mixed(__u64 x) {
    x ^= x >> 33;
    x *= 0xff51afd7ed558ccdULL;
    x ^= x >> 33;
    x *= 0xc4ceb9fe1a85ec53ULL;
    return x ^ x >> 33;
}

static long add(__u32 i, void *ctx) {
    __u64 hash = mixed(i * 7);
#pragma unroll
    for (int k = 0; k < 3; k++) {
        __u32 bit = (hash >> (16 * k)) & (WORDS * 64 - 1);
        __sync_fetch_and_or(&bits[bit / 64], 1ULL << (bit % 64));
    }
    return 0;
}

static long test(__u32 i, void *ctx) {
    __u64 hash = mixed(i);
    int in = 1;
#pragma unroll
    for (int k = 0; k < 3; k++) {
        __u32 bit = (hash >> (16 * k)) & (WORDS * 64 - 1);
        if (!(bits[bit / 64] & 1ULL << (bit % 64)))
            in = 0;
    }
    if (in)
        __sync_fetch_and_add(&hits, 1);
    return 0;
}

SEC("xdp") long bloom_filter(__u64 argument) {
    bpf_loop(100, add, 0, 0);
    bpf_loop(1000, test, 0, 0);
    return hits;
}
