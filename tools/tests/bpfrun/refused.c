// The argument is the number of iterations of one loop call, and 8388604 more than the flags of another.
#include "bpf.h"

__u64 calls;

static long count(__u32 i, void *ctx) {
    calls += 1;
    return 0;
}

SEC("xdp") long main_function(__u64 argument) {
    bpf_loop(argument, count, 0, 0);
    return bpf_loop(1, count, 0, argument - 8388604);
}
