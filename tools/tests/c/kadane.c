// The contiguous part of a row of signed numbers with the greatest sum.
#include "bpf.h"

#define N 80

signed char v[N];
struct best {
    int sum;
    short from, to;
};
struct best best = {-1000, -1, -1};

struct scan {
    struct best current;
    int seed;
};

static long step(__u32 i, void *ctx) {
    struct scan *s = ctx;
    if (i >= N)
        return 1;
    if (s->current.sum < 0) {
        s->current.sum = 0;
        s->current.from = i;
    }
    s->current.sum += v[i];
    s->current.to = i;
    if (s->current.sum > best.sum)
        best = s->current;
    return 0;
}

SEC("xdp") long kadane(__u64 argument) {
    struct scan s = {{-1, 0, 0}, argument};
    for (unsigned int i = 0; i < N; i++)
        v[i] = (signed char)((i * i * 17 + argument * 5) % 61) - 32;
    bpf_loop(N, step, &s, 0);
    return best.sum * 10000L + best.from * 100 + best.to;
}
