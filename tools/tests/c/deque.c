// The greatest of each window of eight values, by a queue of indexes with two ends.
#include "bpf.h"

#define N 60
#define WINDOW 8

unsigned short values[N];
unsigned short greatest[N];

struct deque {
    unsigned char places[N];
    unsigned char front, back;
};

static long slide(__u32 i, void *ctx) {
    struct deque *d = ctx;
    if (i >= N)
        return 1;
    while (d->back > d->front && d->back <= N && values[d->places[d->back - 1]] <= values[i])
        d->back--;
    if (d->back < N)
        d->places[d->back++] = i;
    if (d->front < N && d->places[d->front] + WINDOW <= i)
        d->front++;
    if (d->front < N)
        greatest[i] = values[d->places[d->front]];
    return 0;
}

SEC("xdp") long deque(__u64 argument) {
    struct deque d = {};
    long total = 0;
    for (unsigned int i = 0; i < N; i++)
        values[i] = (i * 7919 + argument) % 1013;
    bpf_loop(N, slide, &d, 0);
    for (int i = 0; i < N; i++)
        total += greatest[i];
    return total;
}
