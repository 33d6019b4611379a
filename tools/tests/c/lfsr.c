// A Galois shift register of 16 bits: its period, and how often each low nibble is met.
#include <linux/bpf.h>
#include <bpf/bpf_helpers.h>

struct lfsr {
    __u16 state;
    __u16 start;
    __u32 period;
};
__u16 nibbles[16];
__u16 last;

static long step(__u32 i, void *ctx)
{
    struct lfsr *l = ctx;
    __u16 low = l->state & 1;
    l->state >>= 1;
    if (low)
        l->state ^= 0xd008;
    l->period++;
    nibbles[l->state & 15]++;
    last = l->state;
    return l->state == l->start;
}

SEC("xdp")
int lfsr(void *ctx)
{
    struct lfsr l = { .state = 0xace1, .start = 0xace1 };
    bpf_loop(2000, step, &l, 0);
    return l.period;
}
char LICENSE[] SEC("license") = "GPL";
