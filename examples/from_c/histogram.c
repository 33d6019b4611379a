// A histogram: 64 samples are counted in 16 bins, by their four low bits.
#include "bpf.h"

struct {
    __uint(type, BPF_MAP_TYPE_ARRAY);
    __uint(max_entries, 64);
    __type(key, __u32);
    __type(value, __u64);
} samples SEC(".maps");

struct {
    __uint(type, BPF_MAP_TYPE_ARRAY);
    __uint(max_entries, 16);
    __type(key, __u32);
    __type(value, __u64);
} bins SEC(".maps");

static long count(__u32 i, void *ctx) {
    __u64 *sample = bpf_map_lookup_elem(&samples, &i);
    if (!sample)
        return 1;
    __u32 key = *sample & 15;
    __u64 *bin = bpf_map_lookup_elem(&bins, &key);
    if (bin)
        __sync_fetch_and_add(bin, 1);
    return 0;
}

SEC("xdp") long histogram(__u64 argument) {
    return bpf_loop(64, count, 0, 0);
}
