// A filter of finite response over samples of 16 bits, in fixed point, with a delay line in ctx.
#include "bpf.h"

typedef short s16;
typedef int s32;

#define TAPS 8
#define SAMPLES 48

const s16 taps[TAPS] = {-120, 340, 1800, 3900, 3900, 1800, 340, -120};
s16 input[SAMPLES], output[SAMPLES];

struct line {
    s16 delay[TAPS];
    unsigned char at;
    s32 peak;
};

static long filter(__u32 i, void *ctx) {
    struct line *l = ctx;
    s32 sum = 0;
    if (i >= SAMPLES)
        return 1;
    l->delay[l->at] = input[i];
    for (int k = 0; k < TAPS; k++)
        sum += taps[k] * l->delay[(l->at + TAPS - k) % TAPS];
    l->at = (l->at + 1) % TAPS;
    sum >>= 13;
    output[i] = sum;
    if (sum > l->peak)
        l->peak = sum;
    return 0;
}

SEC("xdp") long fir_filter(__u64 argument) {
    struct line l = {};
    for (int i = 0; i < SAMPLES; i++)
        input[i] = i % 12 < 6 ? 8000 : -8000 + (int)(argument & 255);
    bpf_loop(SAMPLES, filter, &l, 0);
    return l.peak;
}
