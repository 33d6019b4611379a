// Moving averages of round-trip times, smoothed as TCP does it (srtt and mdev).
#include <linux/bpf.h>
#include <bpf/bpf_helpers.h>

#define CONNECTIONS 8

struct rtt {
    __s32 srtt;
    __s32 mdev;
    __u16 samples;
    __u8 valid;
};
struct rtt rtts[CONNECTIONS];

static long sample(__u32 i, void *ctx)
{
    struct rtt *r = &rtts[i % CONNECTIONS];
    __s32 m = 1000 + (__s32)((i * 7919) % 400) - 200;
    if (!r->valid) {
        r->srtt = m << 3;
        r->mdev = m << 1;
        r->valid = 1;
        r->samples = 1;
        return 0;
    }
    m -= r->srtt >> 3;
    r->srtt += m;
    if (m < 0)
        m = -m;
    m -= r->mdev >> 2;
    r->mdev += m;
    r->samples++;
    return 0;
}

SEC("sockops")
int ewma(void *ctx)
{
    bpf_loop(120, sample, NULL, 0);
    return rtts[3].srtt - rtts[2].mdev;
}
char LICENSE[] SEC("license") = "GPL";
