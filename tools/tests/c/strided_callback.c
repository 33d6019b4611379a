// A callback whose loop counts to a number that isn't known, in steps that aren't: all of its rounds are done.
#include <linux/bpf.h>
#include <bpf/bpf_helpers.h>

#define MOST 2048
__u64 composite[MOST / 64];
__u32 primes;

static int is_composite(__u32 n) { return composite[n / 64] >> (n % 64) & 1; }

static long cross_out(__u32 i, void *ctx) {
    __u32 limit = *(__u32 *)ctx;
    __u32 p = i + 2;
    if (p * p >= limit)
        return 1;
    if (is_composite(p))
        return 0;
    for (__u32 m = p * p; m < limit; m += p)
        composite[m / 64] |= 1ULL << (m % 64);
    return 0;
}

SEC("xdp") int strided_callback(long x) {
    __u32 limit = 1024 + (x & 1023);
    bpf_loop(64, cross_out, &limit, 0);
    for (__u32 i = 2; i < limit; i++)
        primes += !is_composite(i);
    return primes;
}
