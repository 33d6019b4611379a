// Dice by a xorshift generator whose state lies in ctx: how often each sum of two is thrown.
#include <linux/bpf.h>
#include <bpf/bpf_helpers.h>

__u16 sums[13];
__u32 doubles;
__u8 last[2];

struct dice {
    __u64 state;
    __u32 thrown;
    __u8 row;
    __u8 longest_row;
};

static __u32 next(struct dice *d)
{
    d->state ^= d->state << 13;
    d->state ^= d->state >> 7;
    d->state ^= d->state << 17;
    return d->state >> 32;
}

static long throw(__u32 i, void *ctx)
{
    struct dice *d = ctx;
    __u8 a = next(d) % 6 + 1, b = next(d) % 6 + 1;
    sums[a + b]++;
    d->thrown++;
    if (a == b) {
        doubles++;
        if (++d->row > d->longest_row)
            d->longest_row = d->row;
    } else {
        d->row = 0;
    }
    last[0] = a;
    last[1] = b;
    return 0;
}

SEC("xdp")
int xorshift(void *ctx)
{
    struct dice d = { .state = 88172645463325252ULL + (__u64)ctx };
    bpf_loop(360, throw, &d, 0);
    return d.longest_row * 1000 + sums[7];
}
char LICENSE[] SEC("license") = "GPL";
