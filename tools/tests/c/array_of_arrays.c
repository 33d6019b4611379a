// Histograms in the values of maps: one map by class, one with totals.
#include <linux/bpf.h>
#include <bpf/bpf_helpers.h>

#define CLASSES 4
#define BUCKETS 32

struct histogram {
    __u32 buckets[BUCKETS];
    __u64 sum;
    __u32 count;
    __u8 highest;
};

struct {
    __uint(type, BPF_MAP_TYPE_ARRAY);
    __uint(max_entries, CLASSES);
    __type(key, __u32);
    __type(value, struct histogram);
} histograms SEC(".maps");

struct {
    __uint(type, BPF_MAP_TYPE_ARRAY);
    __uint(max_entries, 1);
    __type(key, int);
    __type(value, __u64);
} totals SEC(".maps");

static __always_inline __u32 log2_of(__u64 v)
{
    __u32 r, shift;

    r = (v > 0xFFFFFFFF) << 5;
    v >>= r;
    shift = (v > 0xFFFF) << 4;
    v >>= shift;
    r |= shift;
    shift = (v > 0xFF) << 3;
    v >>= shift;
    r |= shift;
    shift = (v > 0xF) << 2;
    v >>= shift;
    r |= shift;
    shift = (v > 0x3) << 1;
    v >>= shift;
    r |= shift;
    r |= v >> 1;
    return r;
}

static long record(__u32 i, void *ctx)
{
    __u64 latency = ((__u64)i * i * i * 977 + *(__u64 *)ctx) % 1000003;
    __u32 class = i % 5;
    int zero = 0;
    struct histogram *h = bpf_map_lookup_elem(&histograms, &class);
    __u64 *total = bpf_map_lookup_elem(&totals, &zero);

    if (total)
        __sync_fetch_and_add(total, 1);
    if (!h)
        return 0;
    __u32 bucket = log2_of(latency);
    if (bucket >= BUCKETS)
        bucket = BUCKETS - 1;
    __sync_fetch_and_add(&h->buckets[bucket], 1);
    h->sum += latency;
    h->count++;
    if (bucket > h->highest)
        h->highest = bucket;
    return 0;
}

SEC("xdp")
int latencies(__u64 arg)
{
    __u32 key = 2;
    struct histogram *h;

    bpf_loop(500, record, &arg, 0);
    h = bpf_map_lookup_elem(&histograms, &key);
    return h ? h->highest * 1000 + h->count : -1;
}
