// No loop: one value is counted a run, and the sum of an odd place is outside the array.
#include "bpf.h"

enum kind { SMALL, LARGE, HUGE };

struct {
    __u32 seen;
    __s16 last;
    enum kind kind;
} stats;
const volatile __u8 weights[4] = {1, 2, 3, 4};
__u64 sums[4];
char name[8] = "start";

SEC("xdp") int count(__u64 argument) {
    stats.seen++;
    stats.last = -(__s16)argument;
    stats.kind = argument < 10 ? SMALL : argument < 100 ? LARGE : HUGE;
    sums[argument & 7] += argument * weights[argument & 3];
    name[0] = 'S';
    return -(int)stats.seen;
}
