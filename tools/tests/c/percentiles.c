// Percentiles of a histogram that one loop fills, read by map lookups in main, and pi by darts.
#include <linux/bpf.h>
#include <bpf/bpf_helpers.h>

#define BUCKETS 32

struct {
    __uint(type, BPF_MAP_TYPE_ARRAY);
    __uint(max_entries, BUCKETS);
    __type(key, __u32);
    __type(value, __u64);
} latency SEC(".maps");

struct summary {
    __u64 count, sum, min, max;
    __u8 p50, p90, p99;
} summary = { .min = ~0ULL };

__u32 inside;
__u32 pi_thousandths;

static __always_inline __u64 splitmix(__u64 x)
{
    x += 0x9e3779b97f4a7c15ULL;
    x = (x ^ (x >> 30)) * 0xbf58476d1ce4e5b9ULL;
    x = (x ^ (x >> 27)) * 0x94d049bb133111ebULL;
    return x ^ (x >> 31);
}

static __always_inline __u32 log2_u64(__u64 v)
{
    __u32 r, shift;

    r = (v > 0xFFFFFFFF) << 5; v >>= r;
    shift = (v > 0xFFFF) << 4; v >>= shift; r |= shift;
    shift = (v > 0xFF) << 3; v >>= shift; r |= shift;
    shift = (v > 0xF) << 2; v >>= shift; r |= shift;
    shift = (v > 0x3) << 1; v >>= shift; r |= shift;
    r |= (v >> 1);
    return r;
}

static long sample(__u32 i, void *ctx)
{
    __u64 seed = *(__u64 *)ctx;
    __u64 r = splitmix(seed + i);
    __u64 ns = (r & 0xffff) * ((r >> 16) & 0xfff) >> ((r >> 28) & 15);
    __u32 slot = log2_u64(ns);
    __u64 *count;

    if (slot >= BUCKETS)
        slot = BUCKETS - 1;
    count = bpf_map_lookup_elem(&latency, &slot);
    if (count)
        __sync_fetch_and_add(count, 1);
    summary.count++;
    summary.sum += ns;
    if (ns < summary.min)
        summary.min = ns;
    if (ns > summary.max)
        summary.max = ns;
    return 0;
}

static long dart(__u32 i, void *ctx)
{
    __u64 r = splitmix(*(__u64 *)ctx ^ ((__u64)i << 32));
    __u32 x = r & 0xffff, y = r >> 48;

    if ((__u64)x * x + (__u64)y * y <= 0xffffULL * 0xffff)
        __sync_fetch_and_add(&inside, 1);
    return 0;
}

static __u8 percentile(__u32 percent)
{
    __u64 want = (summary.count * percent + 99) / 100;
    __u64 seen = 0;

    for (__u32 i = 0; i < BUCKETS; i++) {
        __u64 *count = bpf_map_lookup_elem(&latency, &i);
        if (!count)
            break;
        seen += *count;
        if (seen >= want)
            return i;
    }
    return BUCKETS;
}

SEC("kprobe/do_nanosleep")
int percentiles(__u64 seed)
{
    bpf_loop(1000, sample, &seed, 0);
    summary.p50 = percentile(50);
    summary.p90 = percentile(90);
    summary.p99 = percentile(99);
    bpf_loop(2000, dart, &seed, 0);
    pi_thousandths = inside * 4000 / 2000;
    return pi_thousandths;
}
