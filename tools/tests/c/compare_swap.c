// Atomics with results: a lock-free stack of indexes, bits taken, and counters.
#include <linux/bpf.h>
#include <bpf/bpf_helpers.h>

__u64 head = ~0ULL;
__u64 next_of[32];
__u64 bits, tickets, taken[32];
__u64 retries;

static void push(__u64 id)
{
    for (int i = 0; i < 4; i++) {
        __u64 old = head;
        next_of[id & 31] = old;
        if (__sync_val_compare_and_swap(&head, old, id) == old)
            return;
        __sync_fetch_and_add(&retries, 1);
    }
}

static __u64 pop(void)
{
    for (int i = 0; i < 4; i++) {
        __u64 old = head;
        if (old == ~0ULL)
            return old;
        if (__sync_val_compare_and_swap(&head, old, next_of[old & 31]) == old)
            return old;
    }
    return ~0ULL;
}

static long work(__u32 i, void *ctx)
{
    __u64 ticket = __sync_fetch_and_add(&tickets, 3);
    __u64 before = __sync_fetch_and_or(&bits, 1ULL << (ticket & 63));

    if (before >> (ticket & 63) & 1)
        __sync_fetch_and_xor(&bits, 1ULL << (i & 63));
    if (i % 3 == 2) {
        __u64 id = pop();
        if (id != ~0ULL)
            taken[id & 31] += ticket;
    } else {
        push(i & 31);
    }
    return 0;
}

SEC("xdp")
long atomics(__u64 arg)
{
    tickets = arg;
    bpf_loop(90, work, NULL, 0);
    return __sync_lock_test_and_set(&bits, 5);
}
