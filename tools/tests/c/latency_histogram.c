// A histogram of latencies, with a bucket for each power of two.
#include <linux/bpf.h>
#include <bpf/bpf_helpers.h>

#define MAX_SLOTS 27

struct hist {
    __u32 slots[MAX_SLOTS];
    __u32 count;
    __u64 total;
};

struct hist hists[2];

static __always_inline __u32 log2_u32(__u32 v)
{
    __u32 r, shift;

    r = (v > 0xFFFF) << 4;
    v >>= r;
    shift = (v > 0xFF) << 3;
    v >>= shift;
    r |= shift;
    shift = (v > 0xF) << 2;
    v >>= shift;
    r |= shift;
    shift = (v > 0x3) << 1;
    v >>= shift;
    r |= shift;
    r |= (v >> 1);
    return r;
}

static long record(__u32 i, void *ctx)
{
    __u64 x = (i + 1) * 0x9e3779b97f4a7c15ULL;
    __u32 latency = (__u32)(x >> 32) >> (x & 31);
    struct hist *h = &hists[i & 1];
    __u32 slot = log2_u32(latency);
    if (slot >= MAX_SLOTS)
        slot = MAX_SLOTS - 1;
    h->slots[slot]++;
    h->count++;
    h->total += latency;
    return 0;
}

SEC("tracepoint/raw_syscalls/sys_exit")
int latency_histogram(void *ctx)
{
    int most = 0;
    bpf_loop(300, record, 0, 0);
    for (int k = 1; k < MAX_SLOTS; k++)
        if (hists[0].slots[k] > hists[0].slots[most])
            most = k;
    return most;
}
char _license[] SEC("license") = "GPL";
