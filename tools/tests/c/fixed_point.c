// A low-pass filter and a square root by fixed point numbers of 16.16 bits.
#include <linux/bpf.h>
#include <bpf/bpf_helpers.h>

typedef __s32 fixed;
#define ONE (1 << 16)

fixed samples[32], filtered[32], roots[32];
static fixed state = 0;

static inline fixed mul(fixed a, fixed b)
{
    return (__s64)a * b >> 16;
}

static fixed root(fixed x)
{
    __u64 v = (__u64)x << 16, r = 0, bit = 1ULL << 46;

    while (bit > v)
        bit >>= 2;
    while (bit) {
        if (v >= r + bit) {
            v -= r + bit;
            r = (r >> 1) + bit;
        } else {
            r >>= 1;
        }
        bit >>= 2;
    }
    return r;
}

static long filter(__u32 i, void *ctx)
{
    const fixed alpha = (ONE / 5);

    if (i >= 32)
        return 1;
    state += mul(alpha, samples[i] - state);
    filtered[i] = state;
    roots[i] = root(samples[i] < 0 ? -samples[i] : samples[i]);
    return 0;
}

SEC("xdp")
int low_pass(__u64 arg)
{
    for (int i = 0; i < 32; i++)
        samples[i] = ((int)((i * 7919u + (unsigned)arg * 31) % 200) - 100) * ONE;
    bpf_loop(32, filter, NULL, 0);
    return filtered[31];
}
