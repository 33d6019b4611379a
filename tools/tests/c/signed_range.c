// Samples of temperature: least, greatest, mean, and those outside of limits, with signed numbers of all sizes.
#include <linux/bpf.h>
#include <bpf/bpf_helpers.h>

#define N 50

__s8 offsets[4] = { -7, 3, -1, 12 };
__s16 samples[N];
__s32 least = 0x7fffffff, greatest = -0x7fffffff - 1;
__s64 total;
__s64 scaled[N];
int below, above;

static __always_inline int min(int a, int b) { return a < b ? a : b; }
static __always_inline int max(int a, int b) { return a > b ? a : b; }

static long measure(__u32 i, void *ctx)
{
    int x;
    if (i >= N)
        return 1;
    x = (int)(i * 7919 % 601) - 300 + offsets[i % 4];
    samples[i] = x;
    least = min(least, x);
    greatest = max(greatest, x);
    total += x;
    if (x < -200)
        below++;
    else if (x > 200)
        above++;
    scaled[i] = (__s64)x * 1000000007LL >> 3;
    return 0;
}

SEC("xdp")
int signed_range(void *ctx)
{
    bpf_loop(N, measure, NULL, 0);
    return greatest - least + below * above + (int)total;
}
char LICENSE[] SEC("license") = "GPL";
