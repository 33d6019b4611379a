// A count-min sketch with counters of 16 bits that stop at their greatest value.
#include <linux/bpf.h>
#include <bpf/bpf_helpers.h>

#define ROWS 4
#define COLUMNS 64

__u16 sketch[ROWS][COLUMNS];
__u16 estimates[20];

static __always_inline __u32 hash(__u32 x, __u32 row)
{
    x += row * 0x9e3779b9;
    x ^= x >> 15;
    x *= 0x2c1b3c6d;
    x ^= x >> 12;
    return x;
}

static long update(__u32 i, void *ctx)
{
    __u32 key = i % 20 < 3 ? 1 : i % 20;
    for (int r = 0; r < ROWS; r++) {
        __u16 *c = &sketch[r][hash(key, r) % COLUMNS];
        if (*c != 0xffff)
            (*c)++;
    }
    return 0;
}

static long estimate(__u32 i, void *ctx)
{
    __u16 least = 0xffff;
    for (int r = 0; r < ROWS; r++) {
        __u16 c = sketch[r][hash(i, r) % COLUMNS];
        if (c < least)
            least = c;
    }
    if (i < 20)
        estimates[i] = least;
    return 0;
}

SEC("xdp")
int count_min(void *ctx)
{
    bpf_loop(600, update, NULL, 0);
    bpf_loop(20, estimate, NULL, 0);
    return estimates[1];
}
char LICENSE[] SEC("license") = "GPL";
