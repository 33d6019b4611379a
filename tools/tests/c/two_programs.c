// Two programs in one file, by sections of their own, that share a function and a table.
#include <linux/bpf.h>
#include <bpf/bpf_helpers.h>

struct counter {
    __u64 packets;
    __u32 bytes;
    __u16 errors;
};

struct counter counters[2][8];

static __noinline int account(__u32 direction, __u32 queue, __u32 length)
{
    struct counter *c;
    if (direction > 1 || queue > 7)
        return -1;
    c = &counters[direction][queue];
    c->packets++;
    c->bytes += length;
    if (length > 1514)
        c->errors++;
    return c->errors;
}

static long receive(__u32 i, void *ctx)
{
    account(0, i & 7, 60 + i * 13);
    return 0;
}

static long transmit(__u32 i, void *ctx)
{
    return account(1, i % 6, 1500 + i) > 2;
}

SEC("xdp")
int ingress(void *ctx)
{
    bpf_loop(120, receive, NULL, 0);
    return counters[0][3].bytes;
}

SEC("tc")
int egress(void *skb)
{
    long done = bpf_loop(120, transmit, NULL, 0);
    return done * 10 + counters[1][2].errors;
}
char LICENSE[] SEC("license") = "GPL";
