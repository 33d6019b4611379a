// Two main functions.
#include "bpf.h"

__u64 calls;

SEC("xdp") long first(__u64 argument) {
    calls += 1;
    return 1;
}

SEC("tc") long second(__u64 argument) {
    calls += 10;
    return 2;
}
