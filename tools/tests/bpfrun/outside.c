// Iteration 16 is outside the array.
#include "bpf.h"

__u64 squares[16];

static long square(__u32 i, void *ctx) {
    squares[i] = i * i;
    return 0;
}

SEC("xdp") long main_function(__u64 argument) {
    return bpf_loop(argument, square, 0, 0);
}
