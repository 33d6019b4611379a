// A callback that counts in a table by a number that may be past its end.
#include "bpf.h"

unsigned int hist[64];

static long count(__u32 i, void *ctx) {
    unsigned int *step = ctx;
    hist[i * *step]++; // trap
    return 0;
}

SEC("xdp") long index_outside(__u64 argument) {
    unsigned int step = argument + 1;
    return bpf_loop(20, count, &step, 0);
}
