// A Fenwick tree: sums of prefixes with updates between.
#include "bpf.h"

#define N 64

int tree[N + 1];
int answers[N];

static void update(unsigned int at, int by) {
    for (; at <= N; at += at & -at)
        tree[at] += by;
}

static int sum(unsigned int at) {
    int s = 0;
    for (; at > 0; at -= at & -at)
        s += tree[at];
    return s;
}

static long step(__u32 i, void *ctx) {
    int *sign = ctx;
    unsigned int at = i * 29 % N + 1;
    update(at, *sign * (int)(i + 1));
    *sign = -*sign;
    if (i < N)
        answers[i] = sum(i * 11 % N + 1);
    return 0;
}

SEC("xdp") long fenwick(__u64 argument) {
    int sign = argument & 1 ? 1 : -1;
    bpf_loop(N, step, &sign, 0);
    return sum(N);
}
