// Counters of 32 and 64 bits that are added to by atomics.
#include <linux/bpf.h>
#include <bpf/bpf_helpers.h>

__u64 total;
__u32 hits[10];
struct {
    __u32 even, odd;
    __u64 bytes;
} sides;
__s64 balance;

static long count(__u32 i, void *ctx)
{
    __u32 x = i * 2654435761u;
    __sync_fetch_and_add(&total, x & 1023);
    __sync_fetch_and_add(&hits[x % 10], 1);
    if (i & 1)
        __sync_fetch_and_add(&sides.odd, 1);
    else
        __sync_fetch_and_add(&sides.even, 2);
    __sync_fetch_and_add(&sides.bytes, i);
    __sync_fetch_and_sub(&balance, i % 7);
    return 0;
}

SEC("xdp")
int atomics(void *ctx)
{
    bpf_loop(500, count, NULL, 0);
    return total;
}
char LICENSE[] SEC("license") = "GPL";
