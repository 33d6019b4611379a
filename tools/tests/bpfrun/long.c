// Takes long: each iteration goes on from what the one before it left.
#include "bpf.h"

__u64 x = 1;

static long step(__u32 i, void *ctx) {
    x = x * 6364136223846793005ULL + 1442695040888963407ULL;
    return 0;
}

SEC("xdp") long takes_long(__u64 argument) {
    long done = 0;
    for (int call = 0; call < 8; call++) {
        done += bpf_loop(argument, step, 0, 0);
    }
    return done;
}
