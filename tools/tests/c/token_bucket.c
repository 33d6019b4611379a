// A token bucket for each of sixteen flows, with fields of 32 bits.
#include <linux/bpf.h>
#include <bpf/bpf_helpers.h>

#define FLOWS 16
#define RATE 3
#define BURST 300

struct bucket {
    __u32 tokens;
    __u32 last;
    __u32 passed;
    __u32 dropped;
};

struct bucket buckets[FLOWS];

static __always_inline int allow(struct bucket *b, __u32 now, __u32 cost)
{
    __u32 tokens = b->tokens + (now - b->last) * RATE;
    if (tokens > BURST)
        tokens = BURST;
    b->last = now;
    if (tokens < cost) {
        b->tokens = tokens;
        return 0;
    }
    b->tokens = tokens - cost;
    return 1;
}

static long packet(__u32 i, void *ctx)
{
    __u32 flow = (i * 7 + (i >> 3)) % FLOWS;
    struct bucket *b = &buckets[flow];
    if (allow(b, i * 10, 100 + (i & 63)))
        b->passed++;
    else
        b->dropped++;
    return 0;
}

SEC("tc")
int token_bucket(void *skb)
{
    __u32 passed = 0;
    bpf_loop(500, packet, NULL, 0);
    for (int f = 0; f < FLOWS; f++)
        passed += buckets[f].passed;
    return passed;
}
char LICENSE[] SEC("license") = "GPL";
