// More elements than have a short text.
#include "bpf.h"

__u64 values[60000];

SEC("xdp") long put(__u64 argument) {
    if (argument >= 60000)
        return -1;
    values[argument] -= 1;
    return 0;
}
