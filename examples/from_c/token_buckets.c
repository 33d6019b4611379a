// Token buckets of 16 flows: packet i, of flow i % 16, comes at time 10 * i and takes 100 tokens. A bucket gets 3 tokens
// a tick, up to 300.
#include "bpf.h"

#define FLOWS 16

struct bucket {
    __u64 tokens, last;
};
struct bucket buckets[FLOWS];
__u64 passed, dropped;

static long packet(__u32 i, void *ctx) {
    struct bucket *bucket = &buckets[i & (FLOWS - 1)];
    __u64 now = 10 * (__u64)i;
    __u64 tokens = bucket->tokens + (now - bucket->last) * 3;
    if (tokens > 300)
        tokens = 300;
    bucket->last = now;
    if (tokens >= 100) {
        bucket->tokens = tokens - 100;
        __sync_fetch_and_add(&passed, 1);
    } else {
        bucket->tokens = tokens;
        __sync_fetch_and_add(&dropped, 1);
    }
    return 0;
}

SEC("xdp") long token_buckets(__u64 argument) {
    bpf_loop(1000, packet, 0, 0);
    return passed;
}
