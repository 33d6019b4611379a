// Prefix sums of 64 numbers by doubling steps, in two arrays by turns.
#include "bpf.h"

#define N 64

int sums[2][N];

struct step {
    int from;
    unsigned int distance;
};

static long add(__u32 i, void *ctx) {
    struct step *s = ctx;
    int value = sums[s->from][i];
    if (i >= s->distance)
        value += sums[s->from][i - s->distance];
    sums[!s->from][i] = value;
    return 0;
}

SEC("xdp") long prefix_sum(__u64 argument) {
    struct step s = {0, 1};
    for (int i = 0; i < N; i++)
        sums[0][i] = (int)((i * 37 + argument) % 11) - 5;
    while (s.distance < N) {
        bpf_loop(N, add, &s, 0);
        s.distance *= 2;
        s.from = !s.from;
    }
    return sums[s.from][N - 1];
}
