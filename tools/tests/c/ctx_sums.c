// Sums, masks and counts of all sizes that callbacks write through ctx, and that wrap.
#include <linux/bpf.h>
#include <bpf/bpf_helpers.h>

struct sums {
    __u8 small;
    __u16 half;
    __u32 word;
    __u64 whole;
    __s32 signed_word;
    __s16 signed_half;
    __u32 masks;
    __u8 bits;
    __u64 parity, common;
};

struct sums total;
__u64 copies[4];
__u32 shares[8];

static long add(__u32 i, void *ctx)
{
    struct sums *s = ctx;
    __u32 x = i * 2654435761u;
    s->small += x;
    s->half += x >> 8;
    s->word += x;
    s->whole += (__u64)x << 8;
    s->signed_word -= (__s32)x >> 3;
    s->signed_half += (__s16)x;
    s->masks |= 1u << (x & 31);
    s->bits ^= x >> 24;
    s->parity ^= (__u64)x << 32 | i;
    s->common &= ~((__u64)x << 16);
    return 0;
}

static long share(__u32 i, void *ctx)
{
    __u32 *counts = ctx;
    counts[i % 8] += 0x40000000;
    counts[(i * 5 + 1) % 8] -= i;
    return 0;
}

static long read_back(__u32 i, void *ctx)
{
    struct sums *s = ctx;
    s->word += i;
    if (s->word & 1)
        s->half++;
    return s->half == 7;
}

SEC("xdp")
int ctx_sums(void *ctx)
{
    struct sums s = { .common = ~0ULL, .small = 250, .word = 0xfffffff0 };
    __u32 counts[8] = { 1, 2, 3 };
    bpf_loop(100, add, &s, 0);
    copies[0] = s.word;
    copies[1] = s.small;
    copies[2] = s.signed_word;
    copies[3] = s.signed_half;
    bpf_loop(40, share, counts, 0);
    for (int k = 0; k < 8; k++)
        shares[k] = counts[k];
    s.half = 0;
    bpf_loop(50, read_back, &s, 0);
    total.small = s.small;
    total.half = s.half;
    total.word = s.word;
    total.whole = s.whole;
    total.signed_word = s.signed_word;
    total.signed_half = s.signed_half;
    total.masks = s.masks;
    total.bits = s.bits;
    total.parity = s.parity;
    total.common = s.common;
    return s.word;
}
char LICENSE[] SEC("license") = "GPL";
