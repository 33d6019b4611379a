// The eight largest of many values, with where they stand, in descending order.
#include "bpf.h"

#define K 8

struct entry {
    unsigned int value;
    unsigned short place;
};
struct entry top[K];
int held;

static long offer(__u32 i, void *ctx) {
    unsigned int value = (i * 48271u + *(unsigned int *)ctx) % 1009;
    int at = held;
    while (at > 0 && top[at - 1].value < value)
        at--;
    if (at >= K)
        return 0;
    for (int k = K - 1; k > at; k--)
        top[k] = top[k - 1];
    top[at].value = value;
    top[at].place = i;
    if (held < K)
        held++;
    return 0;
}

SEC("xdp") long top_k(__u64 argument) {
    unsigned int salt = argument;
    bpf_loop(100, offer, &salt, 0);
    return top[0].value * 1000L + top[K - 1].value;
}
