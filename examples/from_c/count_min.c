// A count-min sketch: 1,000 keys, 0 to 9 in turn, are counted in each of four rows, and key 7 is looked up.
#include "bpf.h"

#define ROWS 4
#define COLUMNS 64

struct {
    __uint(type, BPF_MAP_TYPE_ARRAY);
    __uint(max_entries, ROWS *COLUMNS);
    __type(key, __u32);
    __type(value, __u64);
} sketch SEC(".maps");

static __always_inline __u32 hash(__u32 x, __u32 seed) {
    x ^= seed;
    x *= 0x85ebca6b;
    x ^= x >> 13;
    x *= 0xc2b2ae35;
    x ^= x >> 16;
    return x;
}

static __always_inline __u64 *counter(__u32 key, __u32 row) {
    __u32 at = row * COLUMNS + hash(key, row * 0x9e3779b9) % COLUMNS;
    return bpf_map_lookup_elem(&sketch, &at);
}

static long update(__u32 i, void *ctx) {
#pragma unroll
    for (int row = 0; row < ROWS; row++) {
        __u64 *count = counter(i % 10, row);
        if (count)
            __sync_fetch_and_add(count, 1);
    }
    return 0;
}

SEC("xdp") long count_min(__u64 argument) {
    __u64 least = ~0ULL;
    bpf_loop(1000, update, 0, 0);
#pragma unroll
    for (int row = 0; row < ROWS; row++) {
        __u64 *count = counter(7, row);
        if (count && *count < least)
            least = *count;
    }
    return least;
}
