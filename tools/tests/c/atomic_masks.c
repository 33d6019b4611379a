// Masks that are joined by atomics, and the old values that some of them give.
#include <linux/bpf.h>
#include <bpf/bpf_helpers.h>

__u64 mask, common = ~0ULL, parity;
__u64 tickets[40];
__u64 next_ticket;
__u64 owner, swaps;

static long join(__u32 i, void *ctx)
{
    __u64 x = (i + 1) * 0x9e3779b97f4a7c15ULL;
    __sync_fetch_and_or(&mask, 1ULL << (x >> 58));
    __sync_fetch_and_and(&common, ~(1ULL << (i & 31)));
    __sync_fetch_and_xor(&parity, x);
    return 0;
}

static long draw(__u32 i, void *ctx)
{
    if (i >= 40)
        return 1;
    tickets[i] = __sync_fetch_and_add(&next_ticket, i | 1);
    if (__sync_val_compare_and_swap(&owner, i - i % 3, i + 1) == i - i % 3)
        swaps++;
    return 0;
}

SEC("xdp")
int atomic_masks(void *ctx)
{
    bpf_loop(100, join, NULL, 0);
    bpf_loop(40, draw, NULL, 0);
    __sync_lock_test_and_set(&owner, mask & 255);
    return next_ticket;
}
char LICENSE[] SEC("license") = "GPL";
