// One round of k-means: 128 points are assigned to the nearest of four centres, and the points of each are summed.
#include "bpf.h"

#define N 128
#define K 4

long x[N], y[N];
long centre_x[K] = {10, 90, 10, 90}, centre_y[K] = {10, 10, 90, 90};
long sum_x[K], sum_y[K], points[K];

static long fill(__u32 i, void *ctx) {
    if (i >= N)
        return 1;
    x[i] = i * 37 % 100;
    y[i] = i * 61 % 100;
    return 0;
}

static long assign(__u32 i, void *ctx) {
    if (i >= N)
        return 1;
    long here_x = x[i], here_y = y[i], least = 1L << 62;
    int nearest = 0;
#pragma unroll
    for (int k = 0; k < K; k++) {
        long dx = here_x - centre_x[k], dy = here_y - centre_y[k], distance = dx * dx + dy * dy;
        if (distance < least) {
            least = distance;
            nearest = k;
        }
    }
    __sync_fetch_and_add(&sum_x[nearest], here_x);
    __sync_fetch_and_add(&sum_y[nearest], here_y);
    __sync_fetch_and_add(&points[nearest], 1);
    return 0;
}

SEC("xdp") long k_means(__u64 argument) {
    bpf_loop(N, fill, 0, 0);
    bpf_loop(N, assign, 0, 0);
    return points[0];
}
