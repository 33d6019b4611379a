// Round-trip times smoothed as TCP does it, with counts in bit-fields, and medians of a window that moves.
#include <linux/bpf.h>
#include <bpf/bpf_helpers.h>

#define SAMPLES 48
#define WINDOW 5

struct rtt {
    __s32 srtt;
    __s32 rttvar;
    __u32 rto;
    __u32 outliers : 12;
    __u32 samples : 12;
    __u32 seeded : 1;
};

struct rtt rtt;
__s32 samples[SAMPLES];
__s32 medians[SAMPLES];
__u32 slow, fast;

static void update(struct rtt *r, __s32 measured)
{
    __s32 err;

    if (!r->seeded) {
        r->srtt = measured << 3;
        r->rttvar = measured << 1;
        r->seeded = 1;
    } else {
        err = measured - (r->srtt >> 3);
        r->srtt += err;
        if (err < 0)
            err = -err;
        if (err > r->rttvar)
            r->outliers++;
        err -= r->rttvar >> 2;
        r->rttvar += err;
    }
    r->samples++;
    r->rto = (r->srtt >> 3) + r->rttvar;
    if (r->rto < 200)
        r->rto = 200;
    else if (r->rto > 120000)
        r->rto = 120000;
}

static __s32 median(const __s32 *at)
{
    __s32 w[WINDOW];

    for (int i = 0; i < WINDOW; i++) {
        int j = i;
        for (; j > 0 && w[j - 1] > at[i]; j--)
            w[j] = w[j - 1];
        w[j] = at[i];
    }
    return w[WINDOW / 2];
}

SEC("xdp")
int round_trip(long n)
{
    __u64 x = (__u64)n * 2 + 1;

    for (int i = 0; i < SAMPLES; i++) {
        x = x * 6364136223846793005ULL + 1442695040888963407ULL;
        samples[i] = 50 + (x >> 56);
        if ((x >> 40 & 15) == 0)
            samples[i] *= 20;
        update(&rtt, samples[i]);
        fast = (fast * 3 + (samples[i] << 8)) / 4;
        slow = (slow * 15 + (samples[i] << 8)) / 16;
    }
    for (int i = 0; i + WINDOW <= SAMPLES; i++)
        medians[i + WINDOW / 2] = median(&samples[i]);
    return rtt.rto;
}
