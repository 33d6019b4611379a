// Signed division of all widths, by variables and by constants: clang 14 and 16 have no instruction for it.
#include <linux/bpf.h>
#include <bpf/bpf_helpers.h>

#define COUNT 12
__s8 bytes[COUNT];
__s16 halves[COUNT];
__s32 words[COUNT];
__s64 longs[COUNT];
__s32 celsius[COUNT];
__s64 mean;

static long divide(__u32 i, void *ctx) {
    __s64 x = *(__s64 *)ctx * 7 - 40 * (__s64)i;
    __s64 d = (__s64)(i & 7) - 9;
    if (i >= COUNT)
        return 1;
    bytes[i] = (__s8)x / (__s8)d;
    halves[i] = (__s16)x % (__s16)d;
    words[i] = (__s32)x / (__s32)d - (__s32)x % 10;
    longs[i] = x / d * 1000 + x % d + x / 16 - x % 16;
    celsius[i] = ((__s32)i * 13 - 60 - 32) * 5 / 9;
    return 0;
}

SEC("xdp") long signed_division(long x) {
    __s64 start = x % 1000003;
    __s64 sum = 0;
    bpf_loop(COUNT, divide, &start, 0);
    for (int i = 0; i < COUNT; i++)
        sum += celsius[i];
    mean = sum / COUNT;
    return mean;
}
