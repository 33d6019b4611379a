// Insertion sort of signed numbers.
#include "bpf.h"

#define N 32

int v[N];
unsigned char sorted;

static long insert(__u32 i, void *ctx) {
    int x, at = i;
    if (i < 1 || i >= N)
        return 0;
    x = v[i];
    while (at > 0 && v[at - 1] > x) {
        v[at] = v[at - 1];
        at--;
    }
    v[at] = x;
    return 0;
}

SEC("xdp") long insertion_sort(__u64 argument) {
    unsigned int x = argument + 12345;
    for (int i = 0; i < N; i++) {
        x = x * 1103515245 + 12345;
        v[i] = (int)(x >> 16 & 0x7fff) - 16384;
    }
    bpf_loop(N, insert, 0, 0);
    sorted = 1;
    for (int i = 1; i < N; i++)
        if (v[i - 1] > v[i])
            sorted = 0;
    return v[0];
}
