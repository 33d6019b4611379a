// Binary search in a sorted array, by a `while`.
#include "bpf.h"

#define N 200

unsigned short sorted[N];
short places[64];

static int find(unsigned short wanted) {
    int low = 0, high = N - 1;
    while (low <= high) {
        int middle = (low + high) >> 1;
        if (sorted[middle] == wanted)
            return middle;
        if (sorted[middle] < wanted)
            low = middle + 1;
        else
            high = middle - 1;
    }
    return -1;
}

static long fill(__u32 i, void *ctx) {
    if (i < N)
        sorted[i] = i * 5 + (i & 3);
    return 0;
}

static long search(__u32 i, void *ctx) {
    if (i < 64)
        places[i] = find(i * 16 + *(int *)ctx);
    return 0;
}

SEC("xdp") long binary_search(__u64 argument) {
    int start = argument % 16, found = 0;
    bpf_loop(N, fill, 0, 0);
    bpf_loop(64, search, &start, 0);
    for (int k = 0; k < 64; k++)
        if (places[k] >= 0)
            found++;
    return found;
}
