// A walk to the left that isn't stopped at the first element.
#include "bpf.h"

unsigned char bytes[32] = "aaaa";
int walked;

static long walk(__u32 i, void *ctx) {
    int *at = ctx;
    walked += bytes[*at]; // trap
    *at -= 3;
    return 0;
}

SEC("xdp") long before_begin(__u64 argument) {
    int at = 12;
    bpf_loop(argument + 2, walk, &at, 0);
    return walked;
}
