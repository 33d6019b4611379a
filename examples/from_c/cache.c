// A cache of four keys: each of 50 keys is found in it, or takes the place of the key that was used least lately.
#include "bpf.h"

#define WAYS 4

struct entry {
    __u64 key, used;
};
struct entry cache[WAYS];

static long use(__u32 i, void *ctx) {
    __u64 key = i * i % 7 + 1, oldest = ~0ULL;
    __u32 victim = 0;
#pragma unroll
    for (int way = 0; way < WAYS; way++) {
        struct entry *entry = &cache[way];
        if (entry->key == key) {
            entry->used = i + 1;
            return 0;
        }
        if (entry->used < oldest) {
            oldest = entry->used;
            victim = way;
        }
    }
    barrier_var(victim);
    victim &= WAYS - 1;
    cache[victim].key = key;
    cache[victim].used = i + 1;
    return 0;
}

SEC("xdp") long cache_of_four(__u64 argument) {
    return bpf_loop(50, use, 0, 0);
}
