// An array on the stack by an index that comes from a table.
#include "bpf.h"

unsigned char places[8] = {0, 1, 2, 3};
unsigned int result;

SEC("xdp") long frame_array(__u64 argument) {
    unsigned int seen[4] = {0};
    places[2] = argument;
    for (int k = 0; k < 4; k++)
        seen[places[k]] += k + 1; // trap
    result = seen[0] * 1000 + seen[1] * 100 + seen[2] * 10 + seen[3];
    return result;
}
