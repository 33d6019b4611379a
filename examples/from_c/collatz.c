// How many steps 27 takes to 1, where an even number is halved, and an odd one goes to three times it and one.
#include "bpf.h"

__u64 x = 27, steps;

static long step(__u32 i, void *ctx) {
    __u64 old = x;
    if (old == 1)
        return 1;
    x = old & 1 ? 3 * old + 1 : old / 2;
    steps++;
    return 0;
}

SEC("xdp") long collatz(__u64 argument) {
    bpf_loop(1000, step, 0, 0);
    return steps;
}
