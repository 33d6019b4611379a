// The product of two matrices of 8 by 8, an element in each iteration.
#include "bpf.h"

#define N 8

const volatile __u64 a[N * N] = {1, 2, 3, 4, 5, 6, 7, 8, [9] = 1, [18] = 1, [27] = 1};
const volatile __u64 b[N * N] = {[0] = 2, [9] = 2, [18] = 2, [27] = 2, [36] = 2};
__u64 c[N * N];

static long element(__u32 i, void *ctx) {
    __u32 row = i / N, column = i % N;
    __u64 sum = 0;
    if (i >= N * N)
        return 1;
#pragma unroll
    for (int k = 0; k < N; k++)
        sum += a[row * N + k] * b[k * N + column];
    // Else clang computes the address of c[i] early, and spills it.
    __u32 at = i;
    asm volatile("" : "+r"(at), "+r"(sum));
    if (at >= N * N)
        return 1;
    c[at] = sum;
    return 0;
}

SEC("xdp") long matrix_product(__u64 argument) {
    return bpf_loop(N * N, element, 0, 0);
}
